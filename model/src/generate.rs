//! Policies and traces made from a seed: the same seed gives the same bytes. With them go the
//! fields of a policy file and the rows of two plain orders.

use crate::class_set::{ClassSet, LAST_BIT};
use crate::masks::{below_mask, class_mask};
use crate::policy::{self, Policy, LONGEST_EPOCH, MOST_CLASSES, TIMING_LENGTH};
use crate::random::Random;
use crate::state::{ranks, Request, BANKS, QUEUE_LIMIT, RANKS};
use crate::trace::{offer_word, COLUMN_BIT, ELIDED, OFFER_BIT, STRAY_BITS, TRIED_SHIFT};

pub use crate::policy::encode_bodies;

/// The two files that the program reads, and sets of classes to ask extracts for.
#[derive(Clone, Debug, PartialEq, Eq)]
pub struct Folder {
    pub policy: Vec<u8>,
    pub trace: Vec<u8>,
    pub sets: Vec<ClassSet>,
    /// The name in [`DAMAGES`] of what was done to the policy, if it was.
    pub damage: Option<&'static str>,
}

/// A folder made from a seed. One policy in four is damaged on purpose, and each
/// kind of damage has its turn; some others are damaged by chance. One folder in sixteen is
/// made for long walks.
pub fn folder(seed: u64) -> Folder {
    let random = &mut Random::new(seed);
    let damage = (seed % 4 == 0).then(|| &DAMAGES[(seed / 4) as usize % DAMAGES.len()]);
    let long_walks = seed % 16 == 3;
    let policy = match damage {
        Some(damage) => (damage.file)(random),
        None if long_walks => long_walks_fields(random).encode(),
        None => policy_file(random),
    };
    let (read, refusal) = policy::read(&policy);
    let trace = match refusal {
        None if long_walks => long_walks_trace(random, &read),
        None => trace_numbers(random, &read),
        // The program does not look at it; it must be there all the same.
        Some(_) => (0..random.below(8)).map(|_| random.next() as u32).collect(),
    };
    let mut bytes: Vec<u8> = trace
        .iter()
        .flat_map(|number| number.to_le_bytes())
        .collect();
    let left_over = random.below(4);
    bytes.extend((0..left_over).map(|_| random.next() as u8));
    Folder {
        policy,
        trace: bytes,
        // Drawn aside: the files are what they were before W-211.
        sets: some_sets(&mut random.aside(), &read),
        damage: damage.map(|damage| damage.name),
    }
}

fn policy_file(random: &mut Random) -> Vec<u8> {
    match random.below(30) {
        0..=2 => damaged_twice(random),
        3 => flipped_bit(random),
        _ => sound_fields(random).encode(),
    }
}

// ---------------------------------------------------------------------------
// Sound policies.

/// The numbers of a policy file, before they are laid out as bytes. They may be
/// wrong: so are damaged files made.
#[derive(Clone, Debug, PartialEq, Eq)]
pub struct PolicyFields {
    /// The byte n, which need not be the number of rows.
    pub n: u8,
    pub rows: Vec<u16>,
    pub epoch: u8,
    pub minimums: Vec<u8>,
    /// The timing body; where it is sound ten bytes, or eleven with a rank gap.
    pub timing: Vec<u8>,
}

impl PolicyFields {
    /// Fields with as many classes as there are rows.
    pub fn new(rows: &[u16], epoch: u8, minimums: &[u8], timing: [u8; TIMING_LENGTH]) -> Self {
        PolicyFields {
            n: rows.len() as u8,
            rows: rows.to_vec(),
            epoch,
            minimums: minimums.to_vec(),
            timing: timing.to_vec(),
        }
    }

    /// The same with an eleventh timing byte.
    pub fn with_rank_gap(mut self, gap: u8) -> Self {
        self.timing.push(gap);
        self
    }

    /// The file, with a contents table that fits its bodies.
    pub fn encode(&self) -> Vec<u8> {
        let mut order = vec![self.n];
        order.extend(self.rows.iter().flat_map(|row| row.to_le_bytes()));
        let mut turns = vec![self.epoch];
        turns.extend_from_slice(&self.minimums);
        encode_bodies(&order, &turns, &self.timing)
    }
}

/// The rows of a chain of n classes: 0 below 1, that below 2, and so on.
pub fn chain_rows(n: usize) -> Vec<u16> {
    let from = |class: usize| below_mask(n) & !below_mask(class);
    (0..n).map(from).collect()
}

/// The rows of n classes of which one is below all others, which are incomparable.
pub fn antichain_rows(n: usize, least: usize) -> Vec<u16> {
    let mut rows: Vec<u16> = (0..n).map(class_mask).collect();
    rows[least] = below_mask(n);
    rows
}

/// A policy that no number refuses.
pub fn sound_fields(random: &mut Random) -> PolicyFields {
    // The most is an edge of marks, masks and class numbers.
    let n = random.between(1, MOST_CLASSES + 2).min(MOST_CLASSES);
    let rows = sound_rows(random, n);
    let (epoch, minimums) = sound_turns(random, &rows);
    let fields = PolicyFields::new(&rows, epoch, &minimums, sound_timing(random));
    with_rank_gap_at_times(random, fields)
}

/// Ten timing bytes are left so in half of the cases, and else get a rank gap, often at its
/// edges. Ranks are drawn aside: but for them, a seed gives what it gave before W-206.
pub(crate) fn with_rank_gap_at_times(random: &Random, fields: PolicyFields) -> PolicyFields {
    let aside = &mut random.aside();
    if aside.percent(50) {
        return fields;
    }
    let dead_time = usize::from(fields.timing[1]);
    fields.with_rank_gap(edge_or_between(aside, 1, dead_time) as u8)
}

/// The rows of an order with a least class, of one of five shapes, with the
/// class numbers permuted.
pub(crate) fn sound_rows(random: &mut Random, n: usize) -> Vec<u16> {
    // Place 0 is the least class, and a place may flow to later ones only.
    let mut flows = vec![vec![false; n]; n];
    let shape = random.below(5);
    for upper in 0..n {
        flows[upper][upper] = true;
        flows[0][upper] = true;
        match shape {
            // A chain.
            0 => (0..upper).for_each(|lower| flows[lower][upper] = true),
            // An antichain over the least class.
            1 => {}
            // A diamond: an antichain between the least class and a greatest.
            2 => {
                if upper == n - 1 {
                    (0..upper).for_each(|lower| flows[lower][upper] = true);
                }
            }
            // A tree: one place directly below.
            3 => {
                let parent = random.below(upper.max(1));
                (0..n).for_each(|lower| flows[lower][upper] |= flows[lower][parent]);
            }
            // Anything: some places below, and all that is below those.
            _ => {
                for middle in 1..upper {
                    if random.percent(35) {
                        (0..n).for_each(|lower| flows[lower][upper] |= flows[lower][middle]);
                    }
                }
            }
        }
    }
    numbered_anew(random, &flows)
}

/// A policy of many classes for W-212's walks: they are in a row, or some stand aside, so that
/// ways of different lengths lead up. Turns are short: a trace has many of them.
fn long_walks_fields(random: &mut Random) -> PolicyFields {
    let n = random.between(10, MOST_CLASSES + 6).min(MOST_CLASSES);
    let aside = *random.pick(&[0, 0, 15, 40]);
    // Place 0 is the least class. Any other is directly above the one before it or, if it
    // stands aside, above any before that.
    let mut flows = vec![vec![false; n]; n];
    for upper in 0..n {
        flows[upper][upper] = true;
        let Some(before) = upper.checked_sub(1) else {
            continue;
        };
        let below = match random.percent(aside) {
            true => random.below(upper),
            false => before,
        };
        (0..n).for_each(|lower| flows[lower][upper] |= flows[lower][below]);
    }
    let rows = numbered_anew(random, &flows);
    let (epoch, minimums) = sound_turns(random, &rows);
    let mut timing = sound_timing(random);
    timing[0] = timing[1] + random.between(1, 4) as u8;
    let fields = PolicyFields::new(&rows, epoch, &minimums, timing);
    with_rank_gap_at_times(random, fields)
}

/// The rows of an order by places, with any class number for each place.
fn numbered_anew(random: &mut Random, flows: &[Vec<bool>]) -> Vec<u16> {
    let n = flows.len();
    let mut class_of: Vec<usize> = (0..n).collect();
    random.shuffle(&mut class_of);
    let mut rows = vec![0; n];
    for (lower, row) in flows.iter().enumerate() {
        for (upper, _) in row.iter().enumerate().filter(|(_, &flows)| flows) {
            rows[class_of[lower]] |= class_mask(class_of[upper]);
        }
    }
    rows
}

/// An epoch and minimums, often at their edges.
fn sound_turns(random: &mut Random, rows: &[u16]) -> (u8, Vec<u8>) {
    let longest = usize::from(LONGEST_EPOCH);
    let epoch = match random.below(8) {
        0 => 1,
        1 => longest,
        2..=5 => random.between(2, 6),
        _ => random.between(1, longest),
    };
    let sum = match random.below(4) {
        0 => 0,
        1 => epoch,
        2 => epoch - 1,
        _ => random.below(epoch + 1),
    };
    let n = rows.len();
    let mut minimums = vec![0; n];
    // At times all are with a class that has nothing above it: those below it have
    // few turns then, and often none.
    let is_top = |&class: &usize| rows[class] == class_mask(class);
    let tops: Vec<usize> = (0..n).filter(is_top).collect();
    if random.percent(25) {
        minimums[*random.pick(&tops)] = if random.percent(50) { epoch } else { sum } as u8;
    } else {
        for _ in 0..sum {
            minimums[random.below(n)] += 1;
        }
    }
    (epoch as u8, minimums)
}

/// Timings, often at their extremes.
pub(crate) fn sound_timing(random: &mut Random) -> [u8; TIMING_LENGTH] {
    let dead = match random.below(6) {
        0 => 2,
        1 => 31,
        2..=4 => random.between(2, 6),
        _ => random.between(2, 31),
    };
    let turn = match random.below(8) {
        0 | 1 => dead + 1,
        2 => 255,
        3..=6 => random.between(dead + 1, dead + 12),
        _ => random.between(dead + 1, 255),
    };
    let response = edge_or_between(random, 2, dead);
    let column = edge_or_between(random, 1, response - 1);
    let mut gaps = [0; 6];
    for gap in &mut gaps {
        *gap = edge_or_between(random, 1, dead) as u8;
    }
    let [rr, rw, wr, ww, after_read, after_write] = gaps;
    [
        turn as u8,
        dead as u8,
        rr,
        rw,
        wr,
        ww,
        after_read,
        after_write,
        column as u8,
        response as u8,
    ]
}

fn edge_or_between(random: &mut Random, first: usize, last: usize) -> usize {
    match random.below(3) {
        0 => first,
        1 => last,
        _ => random.between(first, last),
    }
}

// ---------------------------------------------------------------------------
// Sets of classes.

/// Some sets of classes for a policy, among them two that 9 refuses. For a file that is refused
/// they are any.
fn some_sets(random: &mut Random, policy: &Policy) -> Vec<ClassSet> {
    let mut sets: Vec<ClassSet> = (0..4).map(|_| any_set(random, policy)).collect();
    let refused = [0, 1].map(|place| with_missing_class(random, policy, sets[place]));
    sets.extend(refused);
    sets
}

/// A set of classes that a policy has: often none, one, two of each kind, or all of them.
pub fn any_set(random: &mut Random, policy: &Policy) -> ClassSet {
    let n = policy.class_count();
    let is_lower = |lower: usize, upper: usize| policy.strictly_below(lower, upper);
    let pairs = |fits: &dyn Fn(usize, usize) -> bool| -> Vec<ClassSet> {
        let firsts = 0..n;
        let pairs = firsts.flat_map(|first| (first + 1..n).map(move |second| (first, second)));
        let fitting = pairs.filter(|&(first, second)| fits(first, second));
        let set = |(first, second)| ClassSet::of(first) | ClassSet::of(second);
        fitting.map(set).collect()
    };
    let some = match random.below(12) {
        0 => vec![ClassSet::EMPTY],
        1 => (0..n).map(ClassSet::of).collect(),
        2..=4 => pairs(&|a, b| !is_lower(a, b) && !is_lower(b, a)),
        5 => pairs(&|a, b| is_lower(a, b) || is_lower(b, a)),
        6 => vec![ClassSet::below(n)],
        _ => Vec::new(),
    };
    if !some.is_empty() {
        return *random.pick(&some);
    }
    // One class, and each other by chance: few of them, half of them or most of them.
    let one = random.below(n);
    let chance = *random.pick(&[20, 50, 80]);
    let members = (0..n).filter(|&class| class == one || random.percent(chance));
    members.map(ClassSet::of).collect()
}

/// A set with one class more that a policy does not have, and at times several. Lists that agree
/// for the set agree for this one too: no class may flow to what does not exist.
pub fn with_missing_class(random: &mut Random, policy: &Policy, classes: ClassSet) -> ClassSet {
    let n = policy.class_count();
    let missing = match random.below(6) {
        0 | 1 => n,
        2 => MOST_CLASSES,
        3 => LAST_BIT,
        _ => random.between(n, LAST_BIT),
    };
    let all_missing = u32::MAX << n;
    let more = match random.below(8) {
        0 => random.next() as u32 & all_missing,
        1 => all_missing,
        // Bits that are lost in 16.
        2 => u32::MAX << MOST_CLASSES,
        _ => 0,
    };
    classes | ClassSet::of(missing) | ClassSet(more)
}

// ---------------------------------------------------------------------------
// Damaged policies.

/// One way to damage a policy file.
pub struct Damage {
    pub name: &'static str,
    /// The number that every file so damaged is refused with.
    pub number: u32,
    pub file: fn(&mut Random) -> Vec<u8>,
}

const fn damage(number: u32, name: &'static str, file: fn(&mut Random) -> Vec<u8>) -> Damage {
    Damage { name, number, file }
}

/// Every way to damage a policy file on purpose, by the number it gets.
pub const DAMAGES: [Damage; 63] = [
    damage(1, "empty", |_| Vec::new()),
    damage(1, "cut below 17 bytes", |random| cut_to(random, 1, 16)),
    damage(1, "cut below its last byte", |random| {
        let mut file = sound_file(random);
        let length = random.between(17, file.len() - 1);
        file.truncate(length);
        file
    }),
    damage(1, "bytes past the last body", |random| {
        let mut file = sound_file(random);
        file.extend(vec![0; random.between(1, 3)]);
        file
    }),
    damage(1, "above 65,535 bytes", |random| {
        let past = random.below(4);
        padded_to(random, policy::LONGEST_FILE + 1 + past)
    }),
    damage(1, "byte 0 not 3", |random| other_byte(random, 0)),
    damage(1, "first kind", |random| other_byte(random, 1)),
    damage(1, "second kind", |random| other_byte(random, 6)),
    damage(1, "third kind", |random| other_byte(random, 11)),
    damage(1, "first start, low byte", |random| other_byte(random, 2)),
    damage(1, "first start, high byte", |random| other_byte(random, 3)),
    damage(1, "first length, low byte", |random| other_byte(random, 4)),
    damage(1, "first length, high byte", |random| other_byte(random, 5)),
    damage(1, "second start, low byte", |random| other_byte(random, 7)),
    damage(1, "second start, high byte", |random| other_byte(random, 8)),
    damage(1, "second length, low byte", |random| other_byte(random, 9)),
    damage(1, "second length, high byte", |random| {
        other_byte(random, 10)
    }),
    damage(1, "third start, low byte", |random| other_byte(random, 12)),
    damage(1, "third start, high byte", |random| other_byte(random, 13)),
    damage(1, "third length, low byte", |random| other_byte(random, 14)),
    damage(1, "third length, high byte", |random| {
        other_byte(random, 15)
    }),
    damage(1, "two entries swapped", |random| {
        let mut file = sound_file(random);
        let (left, right) = *random.pick(&[(1, 6), (6, 11), (1, 11)]);
        (0..5).for_each(|place| file.swap(left + place, right + place));
        file
    }),
    damage(1, "a byte between the contents and the bodies", |random| {
        apart(random, 0)
    }),
    damage(1, "a byte between the first two bodies", |random| {
        apart(random, 1)
    }),
    damage(1, "a byte between the last two bodies", |random| {
        apart(random, 2)
    }),
    damage(1, "a start past 16 bits", |random| {
        // A first length of 65,535 leads to byte 65,551, which is 15 in 16 bits.
        let mut file = sound_file(random);
        file[4..6].copy_from_slice(&[0xFF, 0xFF]);
        file[7..9].copy_from_slice(&[15, 0]);
        file
    }),
    damage(1, "any bytes", |random| {
        let length = random.between(17, 90);
        let mut file: Vec<u8> = (0..length).map(|_| random.next() as u8).collect();
        // No kind is 0, so chance cannot make the contents table right.
        file[1] = 0;
        file
    }),
    damage(2, "n = 0", |random| {
        with_fields(random, |_, fields| fields.n = 0)
    }),
    damage(2, "n = 17", |random| {
        with_fields(random, |_, fields| fields.n = 17)
    }),
    damage(2, "n far above 16", |random| {
        with_fields(random, |random, fields| {
            fields.n = random.between(18, 255) as u8
        })
    }),
    damage(2, "n = 0 with lengths to fit", |random| {
        with_fields(random, |_, fields| {
            fields.n = 0;
            fields.rows.clear();
            fields.minimums.clear();
        })
    }),
    damage(2, "n = 17 with lengths to fit", |random| {
        with_fields(random, |_, fields| {
            fields.n = 17;
            fields.rows.resize(17, below_mask(MOST_CLASSES));
            fields.minimums.resize(17, 0);
        })
    }),
    damage(2, "n one beside the rows", |random| {
        with_fields(random, |random, fields| {
            fields.n = if fields.n == 1 || (fields.n < 16 && random.percent(50)) {
                fields.n + 1
            } else {
                fields.n - 1
            }
        })
    }),
    damage(2, "a row more", |random| {
        with_fields(random, |_, fields| fields.rows.push(0))
    }),
    damage(2, "a row less", |random| {
        with_fields(random, |_, fields| {
            fields.rows.truncate(fields.rows.len() - 1)
        })
    }),
    damage(2, "half a row", |random| {
        let fields = sound_fields(random);
        let mut order = vec![fields.n];
        order.extend(fields.rows.iter().flat_map(|row| row.to_le_bytes()));
        if random.percent(50) {
            order.push(0);
        } else {
            order.truncate(order.len() - 1);
        }
        let turns = [&[fields.epoch], fields.minimums.as_slice()].concat();
        encode_bodies(&order, &turns, &fields.timing)
    }),
    damage(2, "no order body", |random| {
        let fields = sound_fields(random);
        let turns = [&[fields.epoch], fields.minimums.as_slice()].concat();
        encode_bodies(&[], &turns, &fields.timing)
    }),
    damage(2, "n and nothing else", |random| {
        let n = random.next() as u8;
        encode_bodies(&[n], &[], &[])
    }),
    damage(2, "a minimum more", |random| {
        with_fields(random, |_, fields| fields.minimums.push(0))
    }),
    damage(2, "a minimum less", |random| {
        with_fields(random, |_, fields| {
            fields.minimums.truncate(fields.minimums.len() - 1)
        })
    }),
    damage(2, "no turns body", |random| {
        let fields = sound_fields(random);
        let mut order = vec![fields.n];
        order.extend(fields.rows.iter().flat_map(|row| row.to_le_bytes()));
        encode_bodies(&order, &[], &fields.timing)
    }),
    damage(2, "12 timing bytes", |random| {
        with_fields(random, |_, fields| fields.timing.resize(12, 2))
    }),
    damage(2, "9 timing bytes", |random| {
        with_fields(random, |_, fields| fields.timing.truncate(9))
    }),
    damage(2, "no timing body", |random| {
        with_fields(random, |_, fields| fields.timing.clear())
    }),
    damage(2, "65,535 bytes", |random| {
        padded_to(random, policy::LONGEST_FILE)
    }),
    damage(3, "a bit at n or above", |random| {
        let n = random.between(1, MOST_CLASSES - 1);
        with_rows(random, n, |random, rows| {
            let class = random.below(n);
            rows[class] |= class_mask(random.between(n, MOST_CLASSES - 1));
        })
    }),
    damage(3, "a row lacks its own bit", |random| {
        let n = random.between(1, MOST_CLASSES);
        with_rows(random, n, |random, rows| {
            let class = random.below(n);
            rows[class] &= !class_mask(class);
        })
    }),
    damage(4, "two classes flow to each other", |random| {
        let n = random.between(2, MOST_CLASSES);
        with_rows(random, n, |random, rows| {
            let lower = random.below(n);
            let upper = (lower + random.between(1, n - 1)) % n;
            rows[lower] |= class_mask(upper);
            rows[upper] |= class_mask(lower);
        })
    }),
    damage(5, "a chain that lacks a flow", |random| {
        let n = random.between(3, MOST_CLASSES);
        with_rows(random, n, |random, rows| {
            let mut class_of: Vec<usize> = (0..n).collect();
            random.shuffle(&mut class_of);
            for (place, &class) in class_of.iter().enumerate() {
                let above = class_of[place..].iter();
                rows[class] = above.map(|&upper| class_mask(upper)).sum();
            }
            let lower = random.below(n - 2);
            let upper = random.between(lower + 2, n - 1);
            rows[class_of[lower]] &= !class_mask(class_of[upper]);
        })
    }),
    damage(6, "no two classes flow", |random| {
        let n = random.between(2, MOST_CLASSES);
        with_rows(random, n, |_, rows| {
            (0..n).for_each(|class| rows[class] = class_mask(class));
        })
    }),
    damage(6, "two chains side by side", |random| {
        let n = random.between(2, MOST_CLASSES);
        with_rows(random, n, |_, rows| {
            for (class, row) in rows.iter_mut().enumerate() {
                *row = (class..n).step_by(2).map(class_mask).sum();
            }
        })
    }),
    damage(7, "E = 0", |random| {
        with_fields(random, |_, fields| {
            fields.epoch = 0;
            fields.minimums.fill(0);
        })
    }),
    damage(7, "E above 64", |random| {
        with_fields(random, |random, fields| {
            fields.epoch = *random.pick(&[65, 66, 128, 255]);
        })
    }),
    damage(7, "a sum of E + 1", |random| {
        with_fields(random, |random, fields| {
            let sum: u8 = fields.minimums.iter().sum();
            let class = random.below(fields.minimums.len());
            fields.minimums[class] += fields.epoch - sum + 1;
        })
    }),
    damage(7, "a sum past one byte", |random| {
        with_fields(random, |_, fields| {
            fields.minimums.fill(0);
            if let [first, second, ..] = fields.minimums.as_mut_slice() {
                (*first, *second) = (128, 128);
            } else {
                fields.minimums.fill(255);
            }
        })
    }),
    damage(8, "turn length", |random| {
        with_fields(random, |random, fields| {
            fields.timing[0] = *random.pick(&[0, 1, fields.timing[1], 2]);
        })
    }),
    damage(8, "dead time too short", |random| {
        with_fields(random, |random, fields| {
            fields.timing[1] = random.below(2) as u8;
        })
    }),
    damage(8, "dead time too long", |random| {
        with_fields(random, |random, fields| {
            fields.timing[0] = 255;
            fields.timing[1] = *random.pick(&[32, 33, 254]);
        })
    }),
    damage(8, "a gap", |random| {
        with_fields(random, |random, fields| {
            let place = random.between(2, 7);
            fields.timing[place] = *random.pick(&[0, fields.timing[1] + 1, 255]);
        })
    }),
    damage(8, "answer delay", |random| {
        with_fields(random, |random, fields| {
            fields.timing[9] = *random.pick(&[0, 1, fields.timing[1] + 1, 255]);
        })
    }),
    damage(8, "column delay", |random| {
        with_fields(random, |random, fields| {
            fields.timing[8] = *random.pick(&[0, fields.timing[9], fields.timing[9] + 1, 255]);
        })
    }),
    damage(8, "a rank gap of 0", |random| {
        with_fields(random, |_, fields| {
            fields.timing.truncate(TIMING_LENGTH);
            fields.timing.push(0);
        })
    }),
    damage(8, "a rank gap above the dead time", |random| {
        with_fields(random, |random, fields| {
            let gap = *random.pick(&[fields.timing[1] + 1, fields.timing[0], 255]);
            fields.timing.truncate(TIMING_LENGTH);
            fields.timing.push(gap);
        })
    }),
];

fn sound_file(random: &mut Random) -> Vec<u8> {
    sound_fields(random).encode()
}

fn with_fields(random: &mut Random, change: fn(&mut Random, &mut PolicyFields)) -> Vec<u8> {
    let mut fields = sound_fields(random);
    change(random, &mut fields);
    fields.encode()
}

/// A file of n classes whose rows are changed; all else is sound.
fn with_rows(
    random: &mut Random,
    n: usize,
    change: impl Fn(&mut Random, &mut Vec<u16>),
) -> Vec<u8> {
    let mut rows = sound_rows(random, n);
    let (epoch, minimums) = sound_turns(random, &rows);
    change(random, &mut rows);
    PolicyFields::new(&rows, epoch, &minimums, sound_timing(random)).encode()
}

fn cut_to(random: &mut Random, shortest: usize, longest: usize) -> Vec<u8> {
    let mut file = sound_file(random);
    file.truncate(random.between(shortest, longest));
    file
}

/// A sound file with one byte replaced by another value.
fn other_byte(random: &mut Random, place: usize) -> Vec<u8> {
    let mut file = sound_file(random);
    let change = match random.below(3) {
        0 => 1,
        1 => 255,
        _ => random.between(1, 255) as u8,
    };
    file[place] = file[place].wrapping_add(change);
    file
}

/// A sound file with a byte put in before a body, counted from 0. The starts
/// from that body on are moved along, so that only the gap is wrong.
fn apart(random: &mut Random, body: usize) -> Vec<u8> {
    let mut file = sound_file(random);
    // The low byte of a body's start; the high byte of a sound file's is 0.
    let start_of = |body: usize| 2 + 5 * body;
    file.insert(usize::from(file[start_of(body)]), 0);
    (body..3).for_each(|later| file[start_of(later)] += 1);
    file
}

/// A file of a given length whose last body is too long, as its length says.
fn padded_to(random: &mut Random, length: usize) -> Vec<u8> {
    let mut file = sound_file(random);
    // The low byte of the last body's start; the high byte of a sound file's is 0.
    let last_start = usize::from(file[12]);
    file.resize(length, 0);
    file[14..16].copy_from_slice(&((length - last_start) as u16).to_le_bytes());
    file
}

/// A file that several numbers could refuse: the lowest must. Each of them is the
/// lowest at times.
fn damaged_twice(random: &mut Random) -> Vec<u8> {
    let mut fields = sound_fields(random);
    let lowest = random.below(FAULTS.len() - 2);
    for _ in 0..random.between(1, 3) {
        let later = random.between(lowest + 1, FAULTS.len() - 1);
        FAULTS[later](random, &mut fields);
    }
    FAULTS[lowest](random, &mut fields);
    let mut file = fields.encode();
    if random.percent(20) {
        file.push(0);
    }
    file
}

/// Faults that can stand in one file together, by the numbers that refuse them: 2
/// to 6, 7 for E and for a minimum, 8. With few classes some are none.
const FAULTS: [fn(&mut Random, &mut PolicyFields); 8] = [
    |_, fields| fields.n = fields.n.wrapping_add(1),
    |random, fields| {
        let class = random.below(fields.rows.len());
        fields.rows[class] &= !class_mask(class);
    },
    |random, fields| {
        let n = fields.rows.len();
        fields.rows[random.below(n)] = below_mask(n);
    },
    |_, fields| {
        // A chain in which the first may not flow to the last.
        let n = fields.rows.len();
        fields.rows = chain_rows(n);
        fields.rows[0] &= !class_mask(n - 1) | class_mask(0);
    },
    |_, fields| {
        let alone = (0..fields.rows.len()).map(class_mask);
        fields.rows = alone.collect();
    },
    |_, fields| fields.epoch = 0,
    |random, fields| {
        let class = random.below(fields.minimums.len());
        fields.minimums[class] = 65;
    },
    |random, fields| {
        let place = random.below(fields.timing.len());
        fields.timing[place] = 0;
    },
];

fn flipped_bit(random: &mut Random) -> Vec<u8> {
    let mut file = sound_file(random);
    let place = random.below(file.len());
    file[place] ^= 1 << random.below(8);
    file
}

// ---------------------------------------------------------------------------
// Traces.

/// A trace for a policy: mostly of some hundreds of numbers, and at times of thousands.
/// At times it passes an epoch's end and has sixteen turns that start at the least class,
/// if the policy has such turns and that does not take too many cycles: if the class
/// passes all of them on, its mark has gone back to 1, however many children it has.
fn trace_numbers(random: &mut Random, policy: &Policy) -> Vec<u32> {
    let epoch = usize::from(policy.epoch);
    let epochs = match epoch - policy.sum_of_minimums() as usize {
        0 => 1,
        others => MOST_CLASSES.div_ceil(others),
    };
    let wait = epochs * epoch * usize::from(policy.timing.turn_length);
    // With fifteen children no fewer than sixteen turns passed on will do. Few policies
    // have so many, so more of their traces wait for it; and they wait for twice as many
    // turns, since the class takes some of them itself.
    let fifteen = policy.covers_of(policy.least()).len() == MOST_CLASSES - 1;
    let (patience, wait) = if fifteen { (75, 2 * wait) } else { (25, wait) };
    let length = match random.below(100) {
        0 => random.between(2_000, 5_000),
        1..=9 => random.between(400, 800),
        10 => 0,
        chance if chance <= patience && wait <= LONGEST_WAIT => {
            return stretches(random, policy, |writer| writer.cycle > wait);
        }
        _ => random.between(1, 400),
    };
    stretches(random, policy, |writer| writer.numbers.len() >= length)
}

/// A trace in which, as a turn starts, mostly one class waits or none: the walk passes all that
/// are below it.
fn long_walks_trace(random: &mut Random, policy: &Policy) -> Vec<u32> {
    let turn_length = usize::from(policy.timing.turn_length);
    let mut numbers = Vec::new();
    for _ in 0..random.between(10, 60) {
        for _ in 0..*random.pick(&[0, 1, 1, 1, 1, 2]) {
            let class = random.below(policy.class_count()) as u8;
            let rank = random.aside().below(ranks(policy));
            numbers.push(on_rank(sound_offer(random, class, BANKS), rank));
        }
        numbers.extend(vec![0; turn_length]);
    }
    numbers
}

/// So many cycles are not too long.
const LONGEST_WAIT: usize = 3_000;

/// A trace of exactly so many numbers for a policy.
pub fn trace_of_length(random: &mut Random, policy: &Policy, length: usize) -> Vec<u32> {
    let long_enough = |writer: &TraceWriter| writer.numbers.len() >= length;
    let mut numbers = stretches(random, policy, long_enough);
    numbers.truncate(length);
    numbers
}

/// Whole stretches, until it is enough.
fn stretches(
    random: &mut Random,
    policy: &Policy,
    enough: impl Fn(&TraceWriter) -> bool,
) -> Vec<u32> {
    let mut writer = TraceWriter {
        random,
        policy,
        numbers: Vec::new(),
        cycle: 0,
        banks: 8,
        ranks: 1,
    };
    while !enough(&writer) {
        writer.stretch();
    }
    writer.numbers
}

/// Writes a trace, stretch by stretch, and counts its ticks.
struct TraceWriter<'a> {
    random: &'a mut Random,
    policy: &'a Policy,
    numbers: Vec<u32>,
    cycle: usize,
    /// Offers use banks below this; few banks make same-bank gaps bite.
    banks: usize,
    /// Offers use ranks below this; with ten timing bytes it is 1.
    ranks: usize,
}

impl TraceWriter<'_> {
    fn stretch(&mut self) {
        self.banks = *self.random.pick(&[1, 2, 8]);
        let in_use = *self.random.aside().pick(&[1, 2, RANKS]);
        self.ranks = in_use.min(ranks(self.policy));
        match self.random.below(110) {
            0..=9 => self.burst(),
            10..=19 => self.idle(),
            20..=39 => self.mixed(),
            40..=59 => self.around_turn_start(),
            60..=69 => self.full_queue(),
            70..=79 => self.all_waiting(),
            80..=88 => self.noise(),
            89 => self.crowd(),
            90..=99 => self.busy_bank(),
            _ => self.slow_kind(),
        }
    }

    fn turn_length(&self) -> usize {
        usize::from(self.policy.timing.turn_length)
    }

    fn any_class(&mut self) -> u8 {
        self.random.below(self.policy.class_count()) as u8
    }

    fn ticks(&mut self, count: usize) {
        self.numbers.extend(vec![0; count]);
        self.cycle += count;
    }

    fn offer(&mut self, class: u8) {
        let word = sound_offer(self.random, class, self.banks);
        self.push_on_a_rank(word);
    }

    /// Puts an offer at the end, on one of the ranks in use.
    fn push_on_a_rank(&mut self, word: u32) {
        let rank = self.random.aside().below(self.ranks);
        self.numbers.push(on_rank(word, rank));
    }

    /// Several offers of one class, then some ticks.
    fn burst(&mut self) {
        let class = self.any_class();
        for _ in 0..self.random.between(2, 6) {
            self.offer(class);
        }
        let count = self.random.below(12);
        self.ticks(count);
    }

    /// Nobody asks for up to two turns.
    fn idle(&mut self) {
        let longest = (2 * self.turn_length()).min(120);
        let count = self.random.between(1, longest);
        self.ticks(count);
    }

    /// Offers of any class among ticks.
    fn mixed(&mut self) {
        for _ in 0..self.random.between(5, 30) {
            if self.random.percent(30) {
                let class = self.any_class();
                self.offer(class);
            } else {
                self.ticks(1);
            }
        }
    }

    /// Offers just before a turn starts and just after.
    fn around_turn_start(&mut self) {
        let left = self.turn_length() - self.cycle % self.turn_length();
        // Not every stretch can wait for the end of a long turn.
        if left > 64 && self.random.percent(70) {
            return self.mixed();
        }
        self.ticks(left - 1);
        for _ in 0..self.random.below(3) {
            let class = self.any_class();
            self.offer(class);
        }
        self.ticks(1);
        for _ in 0..self.random.below(3) {
            let class = self.any_class();
            self.offer(class);
        }
        self.ticks(1);
        for _ in 0..self.random.between(1, 3) {
            let class = self.any_class();
            self.offer(class);
        }
    }

    /// More offers of one class than its queue holds.
    fn full_queue(&mut self) {
        let class = self.any_class();
        for _ in 0..QUEUE_LIMIT + self.random.below(3) {
            self.offer(class);
        }
        if self.random.percent(30) {
            // 10 comes before 11.
            let refused = offer_that_10_refuses(self.random, self.policy, class);
            self.numbers.push(refused);
        }
        let count = self.random.below(6);
        self.ticks(count);
    }

    /// A queue that is filled on one bank, and goes on with some of others among many of that
    /// one: the others go first.
    fn busy_bank(&mut self) {
        let class = self.any_class();
        let busy = self.random.below(BANKS) as u8;
        for _ in 0..QUEUE_LIMIT {
            let word = busy_bank_offer(self.random, class, busy, 100);
            self.push_on_a_rank(word);
        }
        for _ in 0..self.random.between(10, 40) {
            self.ticks(1);
            if self.random.percent(60) {
                let word = busy_bank_offer(self.random, class, busy, 70);
                self.push_on_a_rank(word);
            }
        }
    }

    /// A request of the slow kind, and a queue that is filled up again and again with
    /// requests of the other, all of which may pass it.
    fn slow_kind(&mut self) {
        let class = self.any_class();
        let slow = kind_offer(self.random, class, 1 - quick_kind(self.policy));
        self.push_on_a_rank(slow);
        for _ in 1..QUEUE_LIMIT {
            let word = quick_kind_offer(self.random, self.policy, class);
            self.push_on_a_rank(word);
        }
        for _ in 0..self.random.between(30, 80) {
            self.ticks(1);
            if self.random.percent(60) {
                let word = quick_kind_offer(self.random, self.policy, class);
                self.push_on_a_rank(word);
            }
        }
    }

    /// Every class asks, and then some turns go by.
    fn all_waiting(&mut self) {
        for class in 0..self.policy.class_count() as u8 {
            for _ in 0..self.random.between(1, 3) {
                self.offer(class);
            }
        }
        let longest = (4 * self.turn_length()).min(160);
        let count = self.random.between(1, longest);
        self.ticks(count);
    }

    /// A hundred numbers and more without a tick.
    fn crowd(&mut self) {
        for _ in 0..self.random.between(100, 130) {
            let class = self.any_class();
            if self.random.percent(80) {
                self.offer(class);
            } else {
                let number = noise_word(self.random, self.policy, class);
                self.numbers.push(number);
            }
        }
    }

    /// Malformed words and offers that 9 or 10 refuses.
    fn noise(&mut self) {
        for _ in 0..self.random.between(1, 4) {
            let class = self.any_class();
            let number = noise_word(self.random, self.policy, class);
            self.numbers.push(number);
            let count = self.random.below(3);
            self.ticks(count);
        }
    }
}

/// An offer with a bank below a bound, of either kind, with any tag, on rank 0.
pub fn sound_offer(random: &mut Random, class: u8, banks: usize) -> u32 {
    offer_word(&Request {
        class,
        kind: random.below(2) as u8,
        rank: 0,
        bank: random.below(banks) as u8,
        tag: random.next() as u16,
    })
}

/// An offer on rank 0 as one on another rank.
pub fn on_rank(word: u32, rank: usize) -> u32 {
    word | (rank as u32) << 22
}

/// An offer of one bank in so many of a hundred cases, and else of any.
pub fn busy_bank_offer(random: &mut Random, class: u8, busy: u8, percent: usize) -> u32 {
    let bank = match random.percent(percent) {
        true => busy,
        false => random.below(BANKS) as u8,
    };
    offer_word(&Request {
        class,
        kind: random.below(2) as u8,
        rank: 0,
        bank,
        tag: random.next() as u16,
    })
}

/// The kind whose requests may go on while one of the other waits: its gap after itself is
/// shorter than that of the other, by more than the other's way round.
pub fn quick_kind(policy: &Policy) -> u8 {
    let gaps = policy.timing.gaps.map(|later| later.map(i16::from));
    let [read, write] = [gaps[0][1] - gaps[0][0], gaps[1][0] - gaps[1][1]];
    u8::from(write > read)
}

/// An offer of that kind, and in one of twenty cases of the other.
pub fn quick_kind_offer(random: &mut Random, policy: &Policy, class: u8) -> u32 {
    let quick = quick_kind(policy);
    let kind = if random.percent(5) { 1 - quick } else { quick };
    kind_offer(random, class, kind)
}

/// An offer of a kind, of any bank and with any tag.
fn kind_offer(random: &mut Random, class: u8, kind: u8) -> u32 {
    offer_word(&Request {
        class,
        kind,
        rank: 0,
        bank: random.below(BANKS) as u8,
        tag: random.next() as u16,
    })
}

/// A number that gives 9, 10 or 14. The class is that of offers which 10 refuses.
fn noise_word(random: &mut Random, policy: &Policy, class: u8) -> u32 {
    match random.below(3) {
        0 => {
            let word = missing_class_word(random, policy);
            on_rank(word, *random.aside().pick(&[0, 0, 0, 1, 2, 3]))
        }
        1 => offer_that_10_refuses(random, policy, class),
        _ => malformed_word(random),
    }
}

/// An offer of a class that does not exist, with bank and kind sound or not.
pub fn missing_class_word(random: &mut Random, policy: &Policy) -> u32 {
    let class = random.between(policy.class_count(), 31) as u8;
    sound_offer(random, class, 8) | *random.pick(&[0, 8 << 16, 2 << 20])
}

/// An offer of a bank above 7, of a kind above 1, or of both.
pub fn refused_offer(random: &mut Random, class: u8) -> u32 {
    sound_offer(random, class, 8) | *random.pick(&[8 << 16, 2 << 20, 8 << 16 | 2 << 20])
}

/// The same on any rank; and, with ten timing bytes, at times one of another rank than 0 that
/// is sound apart from that.
pub(crate) fn offer_that_10_refuses(random: &mut Random, policy: &Policy, class: u8) -> u32 {
    let word = refused_offer(random, class);
    let aside = &mut random.aside();
    if ranks(policy) == 1 && aside.percent(50) {
        let sound = word & !(8 << 16 | 2 << 20);
        on_rank(sound, aside.between(1, RANKS - 1))
    } else {
        on_rank(word, aside.below(RANKS))
    }
}

/// A number of neither form: an offer with bits set that must be 0, at times one
/// alone, or a number other than 0 without bit 31.
pub fn malformed_word(random: &mut Random) -> u32 {
    let any = random.next() as u32;
    let stray = 1 << *random.pick(&STRAY_BITS);
    match random.below(5) {
        0 => 1,
        1 => 1 << random.below(31),
        2 => any | 1 << 31 | stray,
        3 => {
            let class = random.below(MOST_CLASSES) as u8;
            sound_offer(random, class, 8) | stray
        }
        _ => any >> 1 | 1,
    }
}

// ---------------------------------------------------------------------------
// Logs of any numbers.

/// A log of a trace that no run wrote. Mostly each number is something like one
/// in its place, so that all that an extract asks of it has many answers.
pub fn any_log(random: &mut Random, trace: &[u32]) -> Vec<u32> {
    let line = |_: &u32| {
        [
            any_status(random),
            any_word(random),
            any_word(random),
            any_turn(random),
        ]
    };
    trace.iter().flat_map(line).collect()
}

fn any_status(random: &mut Random) -> u32 {
    match random.below(4) {
        0 => 0,
        1 => random.next() as u32,
        _ => random.below(20) as u32,
    }
}

/// A number in the place of a command or an answer.
fn any_word(random: &mut Random) -> u32 {
    let any = random.next() as u32;
    let class = (random.below(32) as u32) << 24;
    let low_class = (random.below(17) as u32) << 24;
    match random.below(10) {
        0 => 0,
        1 => any,
        2 => 1 << random.below(32),
        3 => [1, u32::MAX, OFFER_BIT, COLUMN_BIT, 1 << 29][random.below(5)],
        // A class, with any bits around it.
        4 | 5 => any & !(0x1F << 24) | low_class,
        // An offer's word or a column command, of any class.
        6 => OFFER_BIT | class | any & 0x00FF_FFFF,
        7 => OFFER_BIT | COLUMN_BIT | class | any & 0x00D7_FFFF,
        // The same of a class that likely exists.
        8 => OFFER_BIT | low_class | any & 0x00D7_FFFF,
        // No bit but the class.
        _ => class,
    }
}

/// A number in the place of a turn.
fn any_turn(random: &mut Random) -> u32 {
    let any = random.next() as u32;
    let owner = random.below(17) as u32;
    let walk = (1 + random.below(31) as u32) << TRIED_SHIFT;
    match random.below(10) {
        0 => 0,
        1 => any,
        // What a run writes, of classes that exist and that do not; and without a walk.
        2 => 1 + owner,
        3 => 1 + owner + walk,
        4 => 1 + owner + ELIDED,
        5 => 1 + owner + ELIDED + walk,
        // A low byte of 0, or any low byte.
        6 => [256, 512, 768, 65_536, 1 << 31, walk, any << 8][random.below(7)],
        7 => random.below(256) as u32,
        // An owner, with any bits above the low byte.
        8 => any << 8 | (1 + owner),
        // Owners that are others in fewer bits.
        _ => (32 << random.below(3)) + 1 + owner,
    }
}
