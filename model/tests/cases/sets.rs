//! W-211's cases, "Tenants who compare notes": extracts for sets of classes.

use super::*;
use vigambul_model::class_set::ClassSet;
use vigambul_model::extract::extract_set;

/// An extract for a set, as it is asked for: the set, how many numbers of the trace and of the log, and
/// the room.
type AskedOf = (u32, usize, usize, usize);

/// The answer of an extract for a set, and the slice after it.
fn drawn_for(
    policy: &Policy,
    set: u32,
    list: &[u32],
    log: &[u32],
    room: usize,
) -> (String, Vec<u32>) {
    drawn_by(room, |out| {
        extract_set(policy, ClassSet(set), list, log, out)
    })
}

/// Extracts for sets of the first numbers of a trace with the first numbers of a log.
fn sized_for(name: &str, policy: &Policy, list: &[u32], log: &[u32], cases: &[AskedOf]) -> String {
    let line = |&(set, numbers, length, room): &AskedOf| {
        let drawn = drawn_for(policy, set, &list[..numbers], &log[..length], room);
        let line = on_a_line(drawn);
        format!("{name}, set {set}, trace of {numbers}, log of {length}, room for {room}: {line}")
    };
    cases.iter().map(line).collect()
}

/// What sets of the diamond's classes may see of a log, by lines.
fn seen_by(name: &str, list: &[u32], log: &[u32], sets: &[u32]) -> String {
    let lines = sets.iter().map(|&set| {
        let name = format!("{name} seen by set {set}");
        let (answer, out) = drawn_for(&quick_diamond(), set, list, log, log.len());
        format!("{name}: {answer}\n") + &log_lines(&name, &out)
    });
    lines.collect()
}

/// Room that is short, enough, and more, for the empty set, one class, and both; and rows 17 and none.
const SET_ROOM: [AskedOf; 15] = [
    (0, 1, 4, 3),
    (0, 1, 4, 4),
    (0, 3, 12, 3),
    (0, 3, 12, 4),
    (0, 3, 12, 12),
    (1, 3, 12, 7),
    (1, 3, 12, 8),
    (2, 3, 12, 11),
    (2, 3, 12, 12),
    (3, 3, 12, 11),
    (3, 3, 12, 13),
    (3, 1, 5, 4),
    (0, 1, 3, 4),
    (3, 0, 0, 0),
    (0, 0, 0, 4),
];

/// Row 9: a bit at n = 2, alone and beside classes, and higher ones, past 15 too.
const SET_CLASSES: [AskedOf; 8] = [
    (4, 1, 4, 4),
    (7, 1, 4, 4),
    (0x8000, 1, 4, 4),
    (0x1_0000, 1, 4, 4),
    (0x1_0001, 1, 4, 4),
    (0x8000_0000, 1, 4, 4),
    (0x8000_0003, 1, 4, 4),
    (0xFFFF_FFFF, 1, 4, 4),
];

/// 13 where later ones apply too, and where none does; then 9 and 17 so.
const UNFIT_SETS: [AskedOf; 5] = [
    (4, 1, 5, 3),
    (0x1_0000, 1, 4, 4),
    (0, 1, 4, 4),
    (3, 1, 3, 4),
    (0, 0, 0, 0),
];
const SET_ORDER: [AskedOf; 7] = [
    (4, 1, 5, 3),
    (0x1_0000, 1, 5, 3),
    (4, 1, 3, 4),
    (4, 1, 4, 3),
    (0x8000_0000, 1, 4, 3),
    (3, 1, 5, 3),
    (0, 1, 3, 3),
];

/// The sets under document 01's policy.
fn under_printed(cases: &[AskedOf]) -> String {
    sized_for("two classes", &printed_policy(), &SIZED, &SIZED_LOG, cases)
}

/// Sixteen classes, one above the other: of 16 bits none is refused, and the next one is.
fn sixteen() -> String {
    let policy = policy(
        &chain_rows(16),
        64,
        &[4; 16],
        [255, 31, 31, 31, 31, 31, 31, 31, 30, 31],
    );
    let cases = [0, 0xFFFF, 0x8000, 0x4000, 0x7FFF, 0x1_0000, 0x1_FFFF].map(|set| (set, 2, 8, 8));
    let log = [0, 0x8E01_0001, 0x8F00_0002, 0x1_0010, 0, 0, 0, 0];
    sized_for("sixteen classes", &policy, &[0, 0x8F10_0008], &log, &cases)
}

/// The lines of the cases.
pub fn policies() -> String {
    let unfit = unfit_policy();
    let (list, lines): (Vec<u32>, Vec<[u32; LINE]>) = ANY.into_iter().unzip();
    [
        under_printed(&SET_ROOM),
        under_printed(&SET_CLASSES),
        sized_for(
            "two classes, E = 0",
            &unfit,
            &SIZED,
            &SIZED_LOG,
            &UNFIT_SETS,
        ),
        under_printed(&SET_ORDER),
        sixteen(),
        seen_by(
            "a run",
            &FORTY,
            &run_fresh(&quick_diamond(), &FORTY),
            &[0, 6, 3, 15],
        ),
        seen_by("any log", &list, &lines.concat(), &[0, 6, 9]),
    ]
    .concat()
}

/// Each row's cases are refused with its number, whatever later ones apply.
#[test]
fn the_cases_of_sets_are_refused_as_they_are_to_be() {
    let numbers = |answers: String| -> Vec<u32> {
        let number = |line: &str| {
            let (_, answer) = line.split_once(": ").expect(line);
            answer
                .split_once(',')
                .expect(line)
                .0
                .parse()
                .expect("a number")
        };
        answers.lines().map(number).collect()
    };
    assert_eq!(numbers(under_printed(&SET_CLASSES)), [9; 8]);
    let unfit = sized_for("", &unfit_policy(), &SIZED, &SIZED_LOG, &UNFIT_SETS);
    assert_eq!(numbers(unfit), [13; 5]);
    assert_eq!(numbers(under_printed(&SET_ORDER)), [9, 9, 9, 9, 9, 17, 17]);
    assert_eq!(numbers(sixteen()), [0, 0, 0, 0, 0, 9, 9]);
}
