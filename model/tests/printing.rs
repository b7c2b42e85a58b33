//! What the program prints, beyond document 01's printed log.

mod common;

use common::*;
use vigambul_model::class_set::ClassSet;
use vigambul_model::generate::{chain_rows, PolicyFields};
use vigambul_model::program;

fn output(file: &[u8], numbers: &[u32]) -> String {
    let trace: Vec<u8> = numbers
        .iter()
        .flat_map(|number| number.to_le_bytes())
        .collect();
    String::from_utf8(program::output(file, &trace)).expect("the program prints text")
}

#[test]
fn hexadecimal_digits_are_capital_letters_in_every_place() {
    // A chain of ten: idle turns are owned by class 9, whose turn number is 10.
    let file = PolicyFields::new(&chain_rows(10), 1, &[0; 10], TIMING).encode();
    assert_eq!(
        output(&file, &[0x4000_0000, 0x8917_ABCD, 0, 0, 0]),
        "status command answer turn\n\
         0000000E 00000000 00000000 00000000\n\
         00000000 00000000 00000000 00000000\n\
         00000000 8917ABCD 00000000 000A000A\n\
         00000000 C917ABCD 00000000 00000000\n\
         00000000 00000000 8917ABCD 00000000\n"
    );
}

#[test]
fn an_empty_trace_prints_the_header_alone() {
    assert_eq!(output(&PRINTED_POLICY, &[]), "status command answer turn\n");
}

#[test]
fn every_refused_file_prints_its_number() {
    let printed = |rows: &[u16], epoch: u8, timing: [u8; 10]| {
        let minimums = vec![0; rows.len()];
        let file = PolicyFields::new(rows, epoch, &minimums, timing).encode();
        output(&file, &[0])
    };
    let dead_time_1 = [4, 1, 1, 1, 1, 1, 1, 1, 1, 2];
    assert_eq!(output(&[], &[0]), "policy refused 1\n");
    assert_eq!(printed(&[], 3, TIMING), "policy refused 2\n");
    assert_eq!(printed(&[0], 3, TIMING), "policy refused 3\n");
    assert_eq!(printed(&[3, 3], 3, TIMING), "policy refused 4\n");
    assert_eq!(printed(&[3, 6, 4], 3, TIMING), "policy refused 5\n");
    assert_eq!(printed(&[1, 2], 3, TIMING), "policy refused 6\n");
    assert_eq!(printed(&[1], 0, TIMING), "policy refused 7\n");
    assert_eq!(printed(&[1], 3, dead_time_1), "policy refused 8\n");
}

#[test]
fn extracts_are_printed_in_the_same_form() {
    let trace: Vec<u8> = [read_word(1, 0xA), 0]
        .iter()
        .flat_map(|number| number.to_le_bytes())
        .chain([1, 2, 3])
        .collect();
    let extract_of = |classes| program::extract_output(classes, &PRINTED_POLICY, &trace);
    let extract = |class| extract_of(ClassSet::of(class));
    assert_eq!(
        String::from_utf8_lossy(&extract(0)),
        "status command answer turn\n\
         00000000 00000000 00000000 00000200\n\
         trace ends inside a word\n"
    );
    assert_eq!(
        String::from_utf8_lossy(&extract(1)),
        "status command answer turn\n\
         00000000 00000000 00000000 00000000\n\
         00000000 8100000A 00000000 00020102\n\
         trace ends inside a word\n"
    );
    assert_eq!(extract(2), b"extract refused 9\n");
    assert_eq!(extract(usize::MAX), b"extract refused 9\n");
    assert_eq!(
        program::extract_output(ClassSet::of(9), &[], &trace),
        b"policy refused 1\n"
    );
    // The least class sees no more here than nobody does.
    assert_eq!(extract_of(ClassSet::EMPTY), extract(0));
    assert_eq!(extract_of(ClassSet(0b11)), extract(1));
    assert_eq!(extract_of(ClassSet(0b110)), b"extract refused 9\n");
}
