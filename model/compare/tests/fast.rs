//! The rules written for speed give what the model gives: what they are
//! measured against is no less work. Neither built thing is asked here.

mod common;

use common::*;
use vigambul_compare::fast;
use vigambul_compare::workloads::{self, Workload};
use vigambul_model::program::{self, read_trace};
use vigambul_model::state::{self, QUEUE_LIMIT};
use vigambul_model::trace::{self, LINE};

#[test]
fn the_fast_run_writes_what_the_model_writes() {
    let mut counts = Counts::new(&[]);
    for case in cases() {
        let trace = read_trace(case.trace_bytes()).numbers;
        let expected = model_log(case.policy_bytes(), &trace);
        let mut log = vec![7; LINE * trace.len() + 1];
        let status = fast::run(case.policy_bytes(), &trace, &mut log);
        match expected {
            Ok(expected) => {
                assert_eq!(status, 0, "seed {}", case.seed);
                assert_eq!(log[..expected.len()], expected, "seed {}", case.seed);
                assert_eq!(log[expected.len()..], [7], "seed {}", case.seed);
                if !trace.is_empty() {
                    let short = &mut log[..LINE * trace.len() - 1];
                    assert_eq!(fast::run(case.policy_bytes(), &trace, short), 15);
                }
            }
            Err(number) => {
                assert_eq!(status, number, "seed {}", case.seed);
                assert!(log.iter().all(|&number| number == 7), "seed {}", case.seed);
            }
        }
        counts.add(&case);
    }
    counts.require_all_met();
}

#[test]
fn the_fast_run_writes_what_the_model_writes_on_the_workloads() {
    let length = 50_000;
    let all = workloads::main_workloads(length)
        .into_iter()
        .chain(workloads::long_turn_workloads(length));
    for workload in all {
        assert_eq!(workload.trace.len(), length, "{}", workload.name);
        let expected = model_log(&workload.policy, &workload.trace).expect(workload.name);
        let mut log = vec![0; LINE * length];
        assert_eq!(fast::run(&workload.policy, &workload.trace, &mut log), 0);
        assert!(log == expected, "{}", workload.name);
    }
}

#[test]
fn saturated_workloads_keep_every_queue_filled() {
    let length = 20_000;
    let saturated = workloads::main_workloads(length)
        .into_iter()
        .chain(workloads::long_turn_workloads(length))
        .filter(|workload| workload.name.contains("saturated"));
    let mut count = 0;
    for Workload {
        name,
        policy,
        trace,
    } in saturated
    {
        let policy = accepted(&policy);
        let (mut state, _) = state::fresh(&policy);
        let mut owned = vec![false; policy.class_count()];
        for (place, number) in trace.into_iter().enumerate() {
            let waiting = state.classes.iter().map(|class| class.queue.len());
            let all_filled = waiting.clone().all(|length| length == QUEUE_LIMIT);
            let lengths = || waiting.clone().collect::<Vec<_>>();
            assert!(
                number != 0 || all_filled,
                "{name}, {place}: {:?}",
                lengths()
            );
            let line = &mut [0; LINE];
            assert_eq!(trace::run(&policy, &mut state, &[number], line), Ok(()));
            assert_eq!(line[0], 0, "{name}, {place}: refused");
            owned[state.owner] = true;
        }
        // No owner is passed over, so every class that exists owns turns; where
        // turns are long, not all of them in so short a trace.
        let long_turns = policy.timing.turn_length == 255;
        assert!(long_turns || owned.iter().all(|&owned| owned), "{name}");
        count += 1;
    }
    assert_eq!(count, 6, "saturated workloads");
}

#[test]
fn idle_chains_ascend_from_every_height_and_idle_antichains_to_every_child() {
    // Of one epoch the classes that walks start at, and of two the owners.
    for (name, expected) in [
        ("chain of 16, idle", [(0..16).collect(), vec![15; 32]]),
        (
            "antichain of 15 over one, idle",
            [vec![0; 16], (1..16).chain(1..16).chain(1..3).collect()],
        ),
    ] {
        let mut workloads = workloads::main_workloads(2 * 16 * 16).into_iter();
        let workload = workloads.find(|workload| workload.name == name);
        let workload = workload.expect(name);
        let policy = accepted(&workload.policy);
        let first = |turn: u32| policy.home(turn).unwrap_or(policy.least());
        let log = model_log(&workload.policy, &workload.trace).expect(name);
        let turns = log.chunks_exact(LINE).map(|line| line[3] as usize & 0xFF);
        let owners = turns.filter(|&turn| turn != 0).map(|turn| turn - 1);
        let found = [(0..16).map(first).collect(), owners.collect::<Vec<_>>()];
        assert_eq!(found, expected, "{name}");
    }
}

/// The activates of the workload are on every rank, and some go just the rank gap after one on another.
#[test]
fn the_workload_of_ranks_waits_for_its_rank_gap() {
    let mut workloads = workloads::main_workloads(50_000).into_iter();
    let ranks = workloads.find(|workload| workload.name.contains("ranks"));
    let ranks = ranks.expect("a workload of ranks");
    let gap = accepted(&ranks.policy).timing.rank_gap.map(usize::from);
    let log = model_log(&ranks.policy, &ranks.trace).expect(ranks.name);
    let lines = ranks.trace.iter().zip(log.chunks_exact(LINE));
    let ticks = lines.filter(|(&number, _)| number == 0).enumerate();
    let activates = ticks.filter(|(_, (_, line))| line[1] >> 30 == 2);
    let ranks_of: Vec<(usize, u32)> = activates
        .map(|(cycle, (_, line))| (cycle, line[1] >> 22 & 3))
        .collect();
    assert!((0..4).all(|rank| ranks_of.iter().any(|&(_, other)| other == rank)));
    let between = ranks_of.windows(2).filter(|both| both[0].1 != both[1].1);
    let cycles: Vec<usize> = between.map(|both| both[1].0 - both[0].0).collect();
    assert_eq!(cycles.iter().min().copied(), gap);
}

#[test]
fn the_mix_is_refused_in_every_way() {
    let mut workloads = workloads::main_workloads(50_000).into_iter();
    let mix = workloads.find(|workload| workload.name.contains("refusals"));
    let mix = mix.expect("a mix with refusals");
    let log = model_log(&mix.policy, &mix.trace).expect(mix.name);
    for status in [0, 9, 10, 11, 14] {
        let mut lines = log.chunks_exact(LINE);
        assert!(lines.any(|line| line[0] == status), "{status}");
    }
}

#[test]
fn the_fast_program_prints_what_the_model_prints() {
    let folder = Folder::new("fast-program");
    for case in cases().take(300) {
        folder
            .put("policy.bin", case.policy.as_deref())
            .put("trace.bin", case.trace.as_deref());
        let expected = program::output(case.policy_bytes(), case.trace_bytes());
        let output = command_in(env!("CARGO_BIN_EXE_fast_program"), &folder)
            .output()
            .expect("the fast program starts");
        if let Err(why) = check_output(&output, &expected) {
            panic!("seed {} ({}): {why}", case.seed, case.change);
        }
    }
    let file = diamond();
    let mut trace = trace_file(&generated_trace(1, &file, 50_001));
    trace.push(0);
    folder.put_both(&file, &trace);
    let output = command_in(env!("CARGO_BIN_EXE_fast_program"), &folder)
        .output()
        .expect("the fast program starts");
    assert_eq!(
        check_output(&output, &program::output(&file, &trace)),
        Ok(())
    );
}
