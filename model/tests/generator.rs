//! The seeded generator: the same bytes from the same seed, damage that gets
//! the number it is meant to get, and no case left out.

mod common;

use std::collections::HashSet;

use common::*;
use vigambul_model::coverage::Coverage;
use vigambul_model::generate::{self, DAMAGES};
use vigambul_model::policy;
use vigambul_model::random::Random;

/// The seeds that the counts are taken over.
const FOLDERS: u64 = 2_000;

#[test]
fn the_same_seed_gives_the_same_bytes_and_others_give_others() {
    let folders: Vec<_> = (0..200).map(generate::folder).collect();
    for (seed, folder) in folders.iter().enumerate() {
        assert_eq!(*folder, generate::folder(seed as u64), "seed {seed}");
    }
    let different: HashSet<_> = folders.iter().map(|folder| &folder.policy).collect();
    assert!(different.len() > 190, "only {} policies", different.len());
}

#[test]
fn every_kind_of_damage_gets_its_number() {
    for damage in &DAMAGES {
        for seed in 0..300 {
            let file = (damage.file)(&mut Random::new(seed));
            assert_eq!(
                file_number(&file),
                damage.number,
                "{}, seed {seed}",
                damage.name
            );
        }
    }
}

#[test]
fn every_kind_of_damage_has_a_name_of_its_own() {
    let names: HashSet<_> = DAMAGES.iter().map(|damage| damage.name).collect();
    assert_eq!(names.len(), DAMAGES.len());
}

#[test]
fn every_file_number_has_a_damage() {
    for number in 1..=8 {
        assert!(DAMAGES.iter().any(|damage| damage.number == number));
    }
}

#[test]
fn sound_policies_are_accepted_and_in_range() {
    for seed in 0..3_000 {
        let file = generate::sound_fields(&mut Random::new(seed)).encode();
        let (policy, refusal) = policy::read(&file);
        assert_eq!(refusal, None, "seed {seed}");
        assert!(policy.in_range(), "seed {seed}");
    }
}

#[test]
fn the_folders_of_a_fixed_range_of_seeds_meet_every_case() {
    let mut coverage = Coverage::new();
    for seed in 0..FOLDERS {
        coverage.add(&generate::folder(seed));
    }
    for (name, count) in coverage.counts() {
        println!("{:>9} {name}", count.met);
    }
    let missed: Vec<&str> = coverage
        .counts()
        .filter(|(_, count)| count.met < count.needed)
        .map(|(name, _)| name)
        .collect();
    assert_eq!(
        missed,
        Vec::<&str>::new(),
        "too seldom in {FOLDERS} folders"
    );
}
