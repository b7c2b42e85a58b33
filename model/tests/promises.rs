//! The promises of W-202, W-203, W-206, W-209 and W-212 hold of the model as it is, and the search for lists
//! that break one finds every rule that does.

use std::sync::OnceLock;

use vigambul_model::planted::Planted;
use vigambul_model::promises::{changed_by, search, search_planted, Changed, Promise, Search};

/// The pairs whose lists are searched.
const PAIRS: u64 = 20_000;
/// A broken promise must show in so many.
const PAIRS_ENOUGH: u64 = PAIRS / 10;

/// What is held though it is not promised.
const NOT_PROMISED: [Promise; 2] = [Promise::FullCapByHomeTurns, Promise::ActivateInShortTurns];

/// The search of the model as it is, made once for all tests that ask.
fn ordinary_search() -> &'static Search {
    static SEARCH: OnceLock<Search> = OnceLock::new();
    SEARCH.get_or_init(|| search(PAIRS))
}

/// What a wrong rule breaks.
fn broken_by(planted: Planted) -> Vec<Promise> {
    let search = search_planted(PAIRS_ENOUGH, planted);
    println!("{planted:?}: {:#?}", search.broken);
    let promised = |promise: &Promise| !NOT_PROMISED.contains(promise);
    search.broken.into_keys().filter(promised).collect()
}

/// What a wrong rule changes in the lists that are searched.
fn changed(planted: Planted) -> Changed {
    let changed = changed_by(PAIRS, planted);
    println!("{planted:?}, of {} lists: {changed:?}", 2 * PAIRS);
    changed
}

/// A wrong rule changes the turns left after some of these lists, and nothing else.
fn changes_turns_left_alone(planted: Planted) {
    let Changed {
        logs,
        turns_left,
        other_parts,
    } = changed(planted);
    assert_eq!([logs, other_parts], [0, 0]);
    assert!(turns_left > 0);
}

#[test]
fn the_model_as_it_is_keeps_every_promise() {
    for promise in [
        Promise::Minimum,
        Promise::Cap,
        Promise::FullCap,
        Promise::Wait,
        Promise::Activate,
        Promise::TurnsLeft,
        Promise::FirstThatCanGo,
        Promise::OrderOfRankBankAndKind,
        Promise::AtMost15Pass,
        Promise::RankGap,
        Promise::BankGap,
        Promise::WalkBound,
        Promise::WalkWay,
    ] {
        assert_eq!(ordinary_search().broken.get(&promise), None, "{promise:?}");
    }
}

#[test]
fn every_promise_comes_to_bear() {
    println!("{}", ordinary_search().report());
    assert_eq!(ordinary_search().missed(), [""; 0]);
}

#[test]
fn finds_a_plan_that_gives_a_class_one_home_turn_too_few() {
    let broken = broken_by(Planted::PlanOneShort);
    assert!(broken.contains(&Promise::Minimum), "{broken:?}");
    assert!(broken.contains(&Promise::Wait), "{broken:?}");
}

#[test]
fn finds_home_turns_that_start_at_the_least_class() {
    let broken = broken_by(Planted::HomeTurnsStartAtLeast);
    assert!(broken.contains(&Promise::Minimum), "{broken:?}");
    assert!(broken.contains(&Promise::Wait), "{broken:?}");
    // Charges alone keep a class to its cap there, and they use its turns up: all of them, if it is
    // the least and waits throughout.
    assert!(!broken.contains(&Promise::Cap), "{broken:?}");
    assert!(!broken.contains(&Promise::FullCap), "{broken:?}");
    assert!(broken.contains(&Promise::TurnsLeft), "{broken:?}");
}

#[test]
fn finds_home_turns_that_nobody_is_charged_for() {
    let broken = broken_by(Planted::HomeTurnsForAnyone);
    assert!(broken.contains(&Promise::Cap), "{broken:?}");
    assert!(broken.contains(&Promise::FullCap), "{broken:?}");
}

/// The caps are then smaller numbers, and each class owns what it did: by these caps a class that is
/// tried is without turns left only at its own home turn, which needs none, or where nothing is above
/// it. Nor does a dead time change: the trial walk serves only before turns that start at the least
/// class, which is the owner or has turns left there. So no log of a list from fresh shows this rule.
/// It shows in that classes own more turns than these caps, and have none left where a walk can come
/// to them.
#[test]
fn finds_a_cap_less_the_classs_own_minimum() {
    let planted = Planted::CapLessOwnMinimum;
    changes_turns_left_alone(planted);
    let broken = [Promise::Cap, Promise::FullCap, Promise::TurnsLeft];
    assert_eq!(broken_by(planted), broken);
}

/// A least class that waits throughout then owns less than its cap. No other promise says that it must
/// not.
#[test]
fn finds_a_higher_class_asked_first_by_the_full_cap_alone() {
    assert_eq!(broken_by(Planted::HigherAskedFirst), [Promise::FullCap]);
}

#[test]
fn finds_a_dead_time_that_begins_one_cycle_early() {
    let broken = broken_by(Planted::DeadTimeEarly);
    assert_eq!(broken, [Promise::Activate, Promise::FirstThatCanGo]);
}

/// Without its premise W-202's last promise does not hold: the search must see that.
#[test]
fn finds_turns_too_short_to_activate_any_request() {
    let broken = &ordinary_search().broken;
    println!("{broken:?}");
    assert!(broken.contains_key(&Promise::ActivateInShortTurns));
}

/// To wait at all home turns is not W-209's premise, and not enough: the search must see that.
#[test]
fn finds_least_classes_that_wait_at_home_and_own_less_than_their_cap() {
    let broken = &ordinary_search().broken;
    println!("{broken:?}");
    assert!(broken.contains_key(&Promise::FullCapByHomeTurns));
}

/// W-203's promises that follow from the rule are kept without it, and the rule itself is not.
#[test]
fn finds_the_oldest_alone_by_the_rule() {
    let broken = broken_by(Planted::OldestAlone);
    assert_eq!(broken, [Promise::FirstThatCanGo]);
}

/// Where two equal requests wait, nobody can tell from the log that the younger has gone: what has
/// passed what is then counted otherwise than in the state, and may come out above 15.
#[test]
fn finds_the_youngest_that_can_go() {
    let broken = broken_by(Planted::YoungestFirst);
    assert!(broken.contains(&Promise::FirstThatCanGo), "{broken:?}");
    assert!(
        broken.contains(&Promise::OrderOfRankBankAndKind),
        "{broken:?}"
    );
}

#[test]
fn finds_a_queue_that_does_not_close_up_in_its_order() {
    let broken = broken_by(Planted::LastMovesUp);
    assert!(broken.contains(&Promise::FirstThatCanGo), "{broken:?}");
    assert!(
        broken.contains(&Promise::OrderOfRankBankAndKind),
        "{broken:?}"
    );
}

#[test]
fn finds_an_oldest_that_sixteen_may_pass() {
    let broken = broken_by(Planted::SixteenPass);
    let expected = [Promise::FirstThatCanGo, Promise::AtMost15Pass];
    assert_eq!(broken, expected);
}

#[test]
fn finds_counts_that_a_turns_start_forgets() {
    let broken = broken_by(Planted::CountsForgottenAtTurnStart);
    let expected = [Promise::FirstThatCanGo, Promise::AtMost15Pass];
    assert_eq!(broken, expected);
}

#[test]
fn finds_a_count_that_an_offer_forgets() {
    let broken = broken_by(Planted::CountForgottenAtOffer);
    let expected = [Promise::FirstThatCanGo, Promise::AtMost15Pass];
    assert_eq!(broken, expected);
}

/// A count that is too high lets fewer pass: only the rule itself is broken.
#[test]
fn finds_counts_that_go_on_after_the_oldest_has_left() {
    for planted in [Planted::CountNeverReset, Planted::CountKeptBelow15] {
        assert_eq!(broken_by(planted), [Promise::FirstThatCanGo], "{planted:?}");
    }
}

/// The scans that leak are no rule either.
#[test]
fn finds_scans_that_go_by_the_last_activate() {
    for planted in [
        Planted::LastKindFirst,
        Planted::LastBankLast,
        Planted::LastRankFirst,
    ] {
        let broken = broken_by(planted);
        assert!(broken.contains(&Promise::FirstThatCanGo), "{planted:?}");
    }
}

/// Neither rule leaks (`leaks.rs`). Each is found in the logs by the gap that it does not keep, and by the
/// request that goes.
#[test]
fn finds_wrong_gaps_of_ranks_and_banks() {
    for (planted, gap) in [
        (Planted::RankGapOnTheSameRank, Promise::RankGap),
        (Planted::BankForgottenForAnotherRank, Promise::BankGap),
    ] {
        let broken = broken_by(planted);
        assert_eq!(broken, [Promise::FirstThatCanGo, gap], "{planted:?}");
    }
}

/// A rank gap that is longer than the dead time is kept like any other; but then a turn of twice the dead
/// time may be too short for its owner's first activate.
#[test]
fn finds_a_rank_gap_above_the_dead_time_by_the_activate_owed() {
    let broken = broken_by(Planted::RankGapAboveDeadTime);
    assert_eq!(broken, [Promise::Activate]);
}

/// In a walk as long as the longest chain the count is above it.
#[test]
fn finds_a_count_of_tried_classes_that_is_one_too_large() {
    let broken = broken_by(Planted::TriedOneTooMany);
    assert_eq!(broken, [Promise::WalkBound, Promise::WalkWay]);
}

/// A count that is too small is never above the longest chain. It is found since no way is so short.
#[test]
fn finds_counts_that_leave_out_the_owner_or_a_home_class() {
    for planted in [Planted::OwnerNotTried, Planted::HomeClassNotTried] {
        assert_eq!(broken_by(planted), [Promise::WalkWay], "{planted:?}");
    }
}

/// The counts that leak are no rule either. One that goes on by the marks is that of a longer walk, and never
/// above the longest chain; one with all that wait above the owner may be.
#[test]
fn finds_counts_that_go_by_classes_above_the_owner() {
    let waiting = broken_by(Planted::TriedWithWaitingAbove);
    assert_eq!(waiting, [Promise::WalkBound, Promise::WalkWay]);
    let to_the_top = broken_by(Planted::TriedToTheTop);
    assert_eq!(to_the_top, [Promise::WalkWay]);
}

/// Neither of these two shows in the log of a list from fresh: where a walk comes to a class, the class
/// has turns left by the plan alone, charged or not. So they break no promise. The states after the
/// lists are the same too, but for the turns left that the second does not charge. `home_turns.rs` asks
/// both rules of states that are handed in.
#[test]
fn turns_left_decide_nothing_in_a_list_from_fresh() {
    assert_eq!(changed(Planted::HomeNeedsTurnsLeft), Changed::default());
    changes_turns_left_alone(Planted::AscentNotCharged);
    assert_eq!(broken_by(Planted::HomeNeedsTurnsLeft), []);
    assert_eq!(broken_by(Planted::AscentNotCharged), []);
}

/// The comparison by which the test above says so tells what a log and a state show.
#[test]
fn a_changed_log_or_state_is_told() {
    let Changed {
        logs,
        turns_left,
        other_parts,
    } = changed(Planted::PlanOneShort);
    assert!(logs > 0 && turns_left > 0 && other_parts > 0);
}
