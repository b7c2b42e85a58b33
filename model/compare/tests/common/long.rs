//! Lists of as many ticks as there are, under several policies.
//!
//! A number that is kept in too few bits shows only where something goes by it
//! and does not repeat with it. So no turn length and no epoch here has a factor
//! in common with a power of two, and some banks are left alone for a power of
//! two of cycles and then asked for, at times on another rank.

use vigambul_compare::fast::Controller;
use vigambul_model::generate::{antichain_rows, on_rank, sound_offer, PolicyFields};
use vigambul_model::masks::below_mask;
use vigambul_model::policy::MOST_CLASSES;
use vigambul_model::random::Random;
use vigambul_model::state::{ranks, BANKS, LAST_CYCLE, RANKS};
use vigambul_model::trace::Word;

use super::{accepted, diamond};

/// Policies by their names. Class 0 is the least of none.
pub fn policies() -> [(&'static str, Vec<u8>); 4] {
    [
        ("a diamond, turns of 17, E = 7", diamond()),
        ("a chain of 16, turns of 5, E = 63", chain_of_sixteen()),
        ("15 over one, turns of 255, E = 11", fifteen_over_one()),
        ("a tree of 9, turns of 43, E = 13, ranks", tree_of_nine()),
    ]
}

/// 15 below 14, that below 13, and so on; each has four turns more than the one
/// below it.
fn chain_of_sixteen() -> Vec<u8> {
    let rows: Vec<u16> = (1..=MOST_CLASSES).map(below_mask).collect();
    let mut minimums = [4; MOST_CLASSES];
    minimums[15] = 3;
    let timing = [5, 3, 1, 2, 3, 1, 2, 3, 1, 3];
    PolicyFields::new(&rows, 63, &minimums, timing).encode()
}

/// 8 below all others, which are incomparable. It has one turn of an epoch.
fn fifteen_over_one() -> Vec<u8> {
    let rows = antichain_rows(MOST_CLASSES, 8);
    let mut minimums = [0; MOST_CLASSES];
    minimums[..5].fill(2);
    let timing = [255, 31, 29, 31, 30, 28, 31, 27, 13, 30];
    PolicyFields::new(&rows, 11, &minimums, timing).encode()
}

/// 4 below 0, 3, 7 and 8; 0 below 1 and 2, and 3 below 5 and 6. Most of a turn is
/// its dead time; 65,536 cycles after an activate near a turn's start there is
/// another turn's start near. It has four ranks.
fn tree_of_nine() -> Vec<u8> {
    let rows = [
        0b0_0000_0111,
        0b0_0000_0010,
        0b0_0000_0100,
        0b0_0110_1000,
        0b1_1111_1111,
        0b0_0010_0000,
        0b0_0100_0000,
        0b0_1000_0000,
        0b1_0000_0000,
    ];
    let timing = [43, 31, 1, 9, 17, 31, 20, 31, 7, 19];
    let fields = PolicyFields::new(&rows, 13, &[1, 2, 1, 1, 0, 2, 1, 2, 1], timing);
    fields.with_rank_gap(29).encode()
}

/// The numbers of a list that ends with the last tick that is not refused, made
/// from a seed.
pub fn numbers_to_the_last_tick(seed: u64, file: &[u8]) -> Vec<u32> {
    let policy = accepted(file);
    let mut writer = Writer {
        random: Random::new(seed),
        classes: policy.class_count() as u8,
        ranks: ranks(&policy),
        controller: Controller::new(&policy),
        cycle: 0,
        last_activate: None,
        last_of_bank: [None; RANKS * BANKS],
        after_65_536_cycles: 0,
        numbers: Vec::with_capacity(LAST_CYCLE as usize + LAST_CYCLE as usize / 8),
    };
    while writer.cycle < LAST_CYCLE {
        writer.busy();
        writer.quiet();
    }
    // A list in which an age of 16 bits makes no difference tests little.
    let met = writer.after_65_536_cycles;
    assert!(
        met > 10,
        "{met} activates of a bank left alone for 65,536 cycles"
    );
    writer.numbers
}

/// Writes a list and performs it, so that its offers can aim.
struct Writer {
    random: Random,
    classes: u8,
    ranks: usize,
    controller: Controller,
    /// The number of the next tick.
    cycle: u32,
    /// The cycle, the rank and the bank of the last activate.
    last_activate: Option<(u32, usize, u8)>,
    /// The cycle of each bank's last activate.
    last_of_bank: [Option<u32>; RANKS * BANKS],
    /// Activates of a bank whose last one was 65,536 cycles before: in 16 bits
    /// that is no time at all.
    after_65_536_cycles: usize,
    numbers: Vec<u32>,
}

impl Writer {
    fn tick(&mut self) {
        if self.cycle == LAST_CYCLE {
            return;
        }
        // Near the end offers come thick, so that commands and answers are in
        // flight when the ticks run out.
        if self.cycle + 40 > LAST_CYCLE {
            self.offer_of_any();
        }
        self.numbers.push(0);
        let [_, command, _, _] = self.controller.call(0);
        // A column command is no offer's word, and none is a tick's.
        if let Word::Offer(request) = Word::of(command) {
            let last = &mut self.last_of_bank[request.bank_place()];
            let age = last.map(|last| self.cycle - last);
            self.after_65_536_cycles += usize::from(age == Some(65_536));
            *last = Some(self.cycle);
            self.last_activate = Some((self.cycle, usize::from(request.rank), request.bank));
        }
        self.cycle += 1;
    }

    fn offer(&mut self, word: u32) {
        // The list ends with its last tick.
        if self.cycle < LAST_CYCLE {
            self.numbers.push(word);
            self.controller.call(word);
        }
    }

    fn offer_of_any(&mut self) {
        let class = self.random.below(usize::from(self.classes)) as u8;
        let word = sound_offer(&mut self.random, class, BANKS);
        let rank = self.any_rank();
        self.offer(on_rank(word, rank));
    }

    /// With one rank nothing is drawn.
    fn any_rank(&mut self) -> usize {
        match self.ranks {
            1 => 0,
            ranks => self.random.below(ranks),
        }
    }

    /// Some thousands of ticks with offers of all classes and banks.
    fn busy(&mut self) {
        for _ in 0..self.random.below(20_000) {
            if self.random.below(8) == 0 {
                self.offer_of_any();
            }
            self.tick();
        }
    }

    /// Nobody asks until a power of two of cycles after the last activate; then
    /// all ask for its bank, so that whoever owns that turn does. With ranks, at times
    /// they ask for the bank of that number on any of them.
    fn quiet(&mut self) {
        let power = match self.random.below(40) {
            0 => 20,
            1..=20 => 16,
            _ => 7 + self.random.below(12),
        };
        let age = 1 << power;
        let Some(mut last) = self.last_activate else {
            return;
        };
        // What still waits may be activated yet.
        while self.cycle < LAST_CYCLE && self.cycle < last.0 + age {
            self.tick();
            last = self.last_activate.unwrap_or(last);
        }
        let (_, mut rank, bank) = last;
        if self.ranks > 1 && self.random.below(2) == 0 {
            rank = self.any_rank();
        }
        for class in 0..self.classes {
            let of_any_bank = sound_offer(&mut self.random, class, BANKS);
            let word = of_any_bank & !(7 << 16) | u32::from(bank) << 16;
            self.offer(on_rank(word, rank));
        }
        self.tick();
    }
}
