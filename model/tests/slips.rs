//! "Slips that pass a quick look", each as a list on which the slip would show.

mod common;

use common::*;
use vigambul_model::generate::chain_rows;

#[test]
fn a_higher_class_is_not_asked_first() {
    // Both wait: the lower class takes the turn. Only the lower: the lower. Only
    // the higher: the higher, and so also where nobody waits.
    let policy = policy(&CHAIN_OF_TWO, 64, &[0, 0], TIMING);
    for (offers, owner) in [
        (vec![read_word(0, 1), read_word(1, 1)], 0),
        (vec![read_word(1, 1), read_word(0, 1)], 0),
        (vec![read_word(0, 1)], 0),
        (vec![read_word(1, 1)], 1),
        (vec![], 1),
    ] {
        let list: Vec<u32> = offers.iter().copied().chain([0]).collect();
        assert_eq!(owners(&run_fresh(&policy, &list))[0].0, owner);
    }
}

#[test]
fn a_turn_does_not_return_to_a_class_whose_request_comes_after_the_start() {
    check_late_request(&policy(&CHAIN_OF_TWO, 64, &[0, 0], TIMING));
}

#[test]
fn no_activate_goes_out_in_the_cycle_of_a_due_column_command() {
    let policy = policy(&[1], 1, &[0], [20, 10, 1, 1, 1, 1, 1, 1, 1, 2]);
    let mut list: Vec<u32> = (0..4)
        .map(|bank| read_word(0, bank) | u32::from(bank) << 16)
        .collect();
    list.extend([0; 8]);
    let log = run_fresh(&policy, &list);
    let commands: Vec<u32> = log.chunks(4).skip(4).map(|line| line[1]).collect();
    let expected: Vec<u32> = (0..4)
        .flat_map(|place| [list[place], list[place] | 0x4000_0000])
        .collect();
    assert_eq!(commands, expected);
}

#[test]
fn each_class_has_a_queue_limit_of_its_own() {
    let policy = policy(&chain_rows(16), 64, &[0; 16], TIMING);
    let mut state = fresh(&policy);
    for class in 0..16 {
        let log = run_on(&policy, &mut state, &[read_word(class, 0); 9]);
        let statuses: Vec<u32> = log.chunks(4).map(|line| line[0]).collect();
        assert_eq!(statuses, [0, 0, 0, 0, 0, 0, 0, 0, 11], "class {class}");
    }
    assert!(state.classes.iter().all(|class| class.queue.len() == 8));
}
