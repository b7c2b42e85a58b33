//! "Two lists side by side": the search for leaks, to a class and to W-211's sets of classes, finds
//! every planted one and none in the model as it is.

use std::sync::OnceLock;

use vigambul_model::altered::Altered;
use vigambul_model::leaks::{
    self, all_leaks_to_sets, check_altered, search, search_planted, search_sets,
    search_sets_planted, search_used_up, Check, Pair, Search, ORDINARY_PAIRS,
    ORDINARY_PAIRS_OF_SETS, PAIRS_ENOUGH, PAIRS_OF_SETS_ENOUGH,
};
use vigambul_model::planted::{self, Planted};

/// A planted leak must be found. It must be in the list of all of them, by which
/// the search on the library is tried too.
fn finds(planted: Planted) -> Option<Check> {
    assert!(planted::LEAKS.contains(&planted), "{planted:?}");
    found(planted, search_planted(PAIRS_ENOUGH, planted))
}

fn found(planted: Planted, search: Search) -> Option<Check> {
    println!(
        "{planted:?} after {} pairs: {:?}",
        search.met.pairs(),
        search.leak
    );
    let pairs = search.met.pairs();
    assert!(
        search.leak.is_some(),
        "{planted:?} was not found in {pairs} pairs"
    );
    search.leak.map(|leak| leak.check)
}

/// The same of a leak to sets of classes. For one class the rule is right.
fn finds_for_sets(planted: Planted) -> Option<Check> {
    assert!(planted::LEAKS_OF_SETS.contains(&planted), "{planted:?}");
    let search = search_sets_planted(PAIRS_OF_SETS_ENOUGH, planted);
    found(planted, search)
}

/// The search of the model as it is, made once for all tests that ask.
fn ordinary_search() -> &'static Search {
    static SEARCH: OnceLock<Search> = OnceLock::new();
    SEARCH.get_or_init(|| search(ORDINARY_PAIRS))
}

/// The same for sets of classes.
fn ordinary_search_of_sets() -> &'static Search {
    static SEARCH: OnceLock<Search> = OnceLock::new();
    SEARCH.get_or_init(|| search_sets(ORDINARY_PAIRS_OF_SETS))
}

/// The replay is by `leaks::pair` and `leaks::pair_of_set`.
#[test]
fn the_model_as_it_is_shows_no_leak() {
    for (search, pairs) in [
        (ordinary_search(), ORDINARY_PAIRS),
        (ordinary_search_of_sets(), ORDINARY_PAIRS_OF_SETS),
    ] {
        println!("{}", search.report());
        assert_eq!(search.leak, None);
        assert_eq!(search.met.pairs(), pairs);
    }
}

#[test]
fn the_search_covers_what_it_must() {
    assert_eq!(ordinary_search().met.too_little(), [""; 0]);
}

#[test]
fn the_search_for_sets_covers_what_it_must() {
    assert_eq!(ordinary_search_of_sets().met.too_little(), [""; 0]);
}

/// Of so many pairs, all lists agree and most differ.
fn check_pairs(pair: fn(u64) -> Pair, count: u64) {
    let mut different = 0;
    for seed in 0..count {
        let pair = pair(seed);
        let [left, right] = [0, 1].map(|side| &pair.lists[side]);
        let [left_over, other] = [left, right].map(|list| leaks::purge(pair.seen, list));
        assert_eq!(left_over, other, "seed {seed}");
        different += u64::from(left != right);
    }
    assert!(different > count / 2, "only {different} differ");
}

#[test]
fn every_pair_is_of_lists_that_agree_and_differ() {
    check_pairs(leaks::pair, ORDINARY_PAIRS);
}

#[test]
fn every_pair_for_a_set_is_of_lists_that_agree_and_differ() {
    check_pairs(leaks::pair_of_set, PAIRS_OF_SETS_ENOUGH);
}

#[test]
fn finds_dead_time_that_is_always_dropped() {
    finds(Planted::AlwaysElided);
}

#[test]
fn finds_document_000s_test_for_dropping() {
    finds(Planted::Document000Elision);
}

#[test]
fn finds_a_trial_walk_that_forgets_the_epochs_end() {
    finds(Planted::EpochEndForgotten);
}

#[test]
fn finds_a_higher_class_that_is_asked_first() {
    finds(Planted::HigherAskedFirst);
}

#[test]
fn finds_a_turn_that_is_reclaimed() {
    finds(Planted::TurnReclaimed);
}

#[test]
fn finds_a_trial_walk_that_forgets_the_end_of_a_long_epoch() {
    finds(Planted::EpochEndForgottenAboveFive);
}

#[test]
fn finds_dead_time_that_is_always_dropped_in_long_turns() {
    finds(Planted::AlwaysElidedInLongTurns);
}

#[test]
fn finds_a_bank_age_of_8_bits() {
    finds(Planted::BankAgeInEightBits);
}

#[test]
fn finds_dead_time_that_forgets_incomparable_home_classes_for_owner_15() {
    finds(Planted::IncomparableForgottenForOwner15);
}

#[test]
fn finds_a_pool_of_requests_that_all_classes_share() {
    finds(Planted::SharedPoolOf120);
}

#[test]
fn finds_a_mark_that_moves_a_lower_classs() {
    finds(Planted::MarkCarried);
}

#[test]
fn finds_a_run_that_answers_for_its_last_word() {
    let check = finds(Planted::RunAnswersForItsLastWord);
    assert_eq!(check, Some(Check::Run));
}

#[test]
fn finds_a_refused_run_that_makes_its_calls() {
    finds(Planted::RefusedRunMakesItsCalls);
}

#[test]
fn the_model_as_it_is_shows_no_leak_where_turns_are_used_up() {
    let search = search_used_up(ORDINARY_PAIRS / 5, Planted::Nothing);
    assert_eq!(search.leak, None);
}

/// From the fresh state the trial walk goes no further than the least class (W-202): what
/// it does past that shows only where turns are used up.
#[test]
fn finds_a_trial_walk_that_goes_by_the_unmoved_marks() {
    let planted = Planted::TrialByUnmovedMarks;
    found(planted, search_used_up(PAIRS_ENOUGH, planted));
    assert_eq!(search_planted(PAIRS_ENOUGH, planted).leak, None);
}

#[test]
fn finds_a_mark_that_moves_on_a_taken_turn_if_others_wait() {
    finds(Planted::MarkMovedIfOthersWait);
}

#[test]
fn finds_a_trial_walk_before_home_turns() {
    finds(Planted::TrialBeforeHomeTurns);
}

#[test]
fn finds_dead_time_before_a_home_turn_that_goes_by_who_waits_now() {
    finds(Planted::HomeElisionByNextOwner);
}

/// Turns left never decide an owner (`promises.rs`), so no log shows this leak.
#[test]
fn finds_a_home_class_that_is_charged_if_a_higher_one_waits() {
    let check = finds(Planted::HomeChargedIfHigherWaits);
    assert_eq!(check, Some(Check::TurnsLeft));
}

/// After a turn of a class that may not flow to the owner the dead time was kept, so the
/// owner's oldest goes first and sets the one count to 0 too: no log shows this leak.
#[test]
fn finds_one_count_of_passes_for_all_classes() {
    let check = finds(Planted::OneCount);
    assert_eq!(check, Some(Check::Passed));
}

#[test]
fn finds_one_count_of_passes_that_goes_on_to_15() {
    finds(Planted::OneCountUpTo15);
}

#[test]
fn finds_a_scan_that_prefers_the_kind_of_the_last_activate() {
    let check = finds(Planted::LastKindFirst);
    assert_eq!(check, Some(Check::Command));
}

#[test]
fn finds_a_scan_that_avoids_the_bank_of_the_last_activate() {
    let check = finds(Planted::LastBankLast);
    assert_eq!(check, Some(Check::Command));
}

#[test]
fn finds_a_mask_of_a_class_with_the_next_ones_bit() {
    finds(Planted::MaskOf5With6);
}

#[test]
fn finds_two_masks_of_classes_that_are_swapped() {
    finds(Planted::MasksOf9And10Swapped);
}

/// The pairs of this search have rank gaps of two more than the dead time, the shortest that can show.
#[test]
fn finds_a_rank_gap_above_the_dead_time() {
    let check = finds(Planted::RankGapAboveDeadTime);
    assert_eq!(check, Some(Check::Command));
}

#[test]
fn finds_a_scan_that_prefers_the_rank_of_the_last_activate() {
    let check = finds(Planted::LastRankFirst);
    assert_eq!(check, Some(Check::Command));
}

#[test]
fn finds_an_extract_that_shows_how_long_a_hidden_turns_walk_was() {
    let check = finds(Planted::HiddenTurnsShowTried);
    assert_eq!(check, Some(Check::Turn));
}

#[test]
fn finds_a_count_of_tried_classes_with_those_above_that_wait() {
    let check = finds(Planted::TriedWithWaitingAbove);
    assert_eq!(check, Some(Check::Turn));
}

#[test]
fn finds_a_count_of_tried_classes_that_goes_on_to_the_top() {
    let check = finds(Planted::TriedToTheTop);
    assert_eq!(check, Some(Check::Turn));
}

#[test]
fn finds_a_count_of_tried_classes_of_the_turn_before() {
    let check = finds(Planted::TriedOfTheTurnBefore);
    assert_eq!(check, Some(Check::Turn));
}

/// "kept is what may flow to every member" is true of every class where there is no member.
#[test]
fn finds_a_set_extract_that_keeps_what_may_flow_to_every_member() {
    finds_for_sets(Planted::KeptForEveryMember);
}

#[test]
fn finds_a_set_extract_that_always_keeps_the_least_class() {
    finds_for_sets(Planted::LeastAlwaysKept);
}

#[test]
fn finds_an_empty_set_that_is_taken_for_all_classes() {
    finds_for_sets(Planted::EmptySetAsAll);
}

#[test]
fn finds_a_set_that_is_taken_for_a_class_above_its_members() {
    finds_for_sets(Planted::SetAsItsJoin);
}

/// Of each of these the leak is to sets alone, and of all but the last to the empty set alone: of the
/// pairs that show one, each agrees for it.
#[test]
fn leaks_to_sets_show_in_no_pair_for_one_class() {
    for planted in planted::LEAKS_OF_SETS {
        let search = search_planted(PAIRS_OF_SETS_ENOUGH, planted);
        assert_eq!(search.leak, None, "{planted:?}");
        let mut leaks = all_leaks_to_sets(PAIRS_OF_SETS_ENOUGH, planted).peekable();
        assert!(leaks.peek().is_some(), "{planted:?}");
        let to_the_empty_set = leaks.all(|leak| leak.classes.is_empty());
        assert_eq!(
            to_the_empty_set,
            planted != Planted::SetAsItsJoin,
            "{planted:?}"
        );
    }
}

/// Both lists of a pair get the same number: `sets.rs` finds this wrong order.
#[test]
fn sixteen_before_nine_does_not_leak() {
    let search = search_sets_planted(PAIRS_OF_SETS_ENOUGH, Planted::RoomBeforeClass);
    assert_eq!(search.leak, None);
}

/// A tick or an offer that leaks to a class leaks to sets too, in the log or in what is stored.
#[test]
fn the_search_for_sets_finds_leaks_in_the_log_and_in_stored_parts() {
    for (planted, check) in [
        (Planted::TriedToTheTop, Check::Turn),
        (Planted::LastKindFirst, Check::Command),
        (Planted::MarkCarried, Check::Mark),
        (Planted::HomeChargedIfHigherWaits, Check::TurnsLeft),
        (Planted::OneCount, Check::Passed),
        (Planted::RunAnswersForItsLastWord, Check::Run),
    ] {
        let search = search_sets_planted(PAIRS_ENOUGH, planted);
        assert_eq!(found(planted, search), Some(check), "{planted:?}");
    }
}

/// These are wrong rules, which `promises.rs` finds, and yet each of them follows from the right count and
/// from whose turn it is.
#[test]
fn wrong_counts_of_tried_classes_do_not_leak_while_they_go_by_the_walk_alone() {
    for planted in [
        Planted::TriedOneTooMany,
        Planted::OwnerNotTried,
        Planted::HomeClassNotTried,
    ] {
        let search = search_planted(PAIRS_ENOUGH, planted);
        assert_eq!(search.leak, None, "{planted:?}");
    }
}

/// These are wrong rules, which `promises.rs` finds, and yet no gap of theirs is longer than the dead
/// time, so no class learns from them what it may not.
#[test]
fn wrong_gaps_of_ranks_and_banks_do_not_leak_while_the_dead_time_covers_them() {
    for planted in [
        Planted::RankGapOnTheSameRank,
        Planted::BankForgottenForAnotherRank,
    ] {
        let search = search_planted(PAIRS_ENOUGH, planted);
        assert_eq!(search.leak, None, "{planted:?}");
    }
}

/// Each change in what is compared, and the one comparison that can tell it.
const ALTERED: [(Altered, Option<Check>); 21] = [
    (Altered::Nothing, None),
    (Altered::RunRefused, Some(Check::Run)),
    (Altered::ExtractRefused, Some(Check::Refusal)),
    (Altered::Count, Some(Check::Count)),
    (Altered::Status, Some(Check::Status)),
    (Altered::Command, Some(Check::Command)),
    (Altered::Answer, Some(Check::Answer)),
    (Altered::SeenTurn, Some(Check::Turn)),
    (Altered::SeenWalk, Some(Check::Turn)),
    (Altered::HiddenTurn, Some(Check::Turn)),
    (Altered::PastTheCount, Some(Check::PastTheCount)),
    (Altered::ShortRoomTaken, Some(Check::Room)),
    (Altered::ShortRoomWritten, Some(Check::Room)),
    (Altered::JustRoomRefused, Some(Check::Room)),
    (Altered::QueueLength, Some(Check::Queue)),
    (Altered::QueueOrder, Some(Check::Queue)),
    (Altered::QueuedRequest, Some(Check::Queue)),
    (Altered::TurnsLeft, Some(Check::TurnsLeft)),
    (Altered::Mark, Some(Check::Mark)),
    (Altered::Passed, Some(Check::Passed)),
    (Altered::HiddenParts, None),
];

/// How many of some pairs can be changed so. In each that can, the one
/// comparison must tell.
fn count_told(pair: fn(u64) -> Pair, altered: Altered, check: Option<Check>) -> usize {
    let told = |&seed: &u64| match check_altered(&pair(seed), seed, altered) {
        None => false,
        Some(fired) => {
            assert_eq!(fired, check, "{altered:?}, seed {seed}");
            true
        }
    };
    (0..200).filter(told).count()
}

/// Makes each change in the outcomes of some pairs.
fn check_comparisons(pair: fn(u64) -> Pair, altered: &[(Altered, Option<Check>)]) {
    for &(altered, check) in altered {
        let count = count_told(pair, altered, check);
        println!("{altered:?}: told by {check:?} in {count} of 200 pairs");
        assert!(count > 50 || altered == Altered::Nothing, "{altered:?}");
    }
}

#[test]
fn each_comparison_is_made_and_tells_what_it_alone_can_tell() {
    check_comparisons(leaks::pair, &ALTERED);
}

#[test]
fn each_comparison_of_sets_is_made_and_tells_what_it_alone_can_tell() {
    check_comparisons(leaks::pair_of_set, &ALTERED);
    let of_sets_alone = (Altered::RefusedSetTaken, Some(Check::RefusedSet));
    check_comparisons(leaks::pair_of_set, &[of_sets_alone]);
}
