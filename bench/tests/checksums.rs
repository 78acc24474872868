//! The checksums that the proved programs are held to are those of the same work in plain Rust.

use std::process::Command;

/// The first number that a program prints.
fn checksum(program: &str, words: &[&str]) -> String {
    let run = Command::new(program).args(words).output();
    let printed = run.expect("a program that runs").stdout;
    let text = String::from_utf8(printed).expect("a text");
    text.split(' ').next().unwrap_or_default().to_owned()
}

/// The words and the checksum of each line.
fn lines(text: &str) -> impl Iterator<Item = (Vec<&str>, &str)> {
    text.lines().map(|line| {
        let (words, wanted) = line.rsplit_once(' ').expect("words and a checksum");
        (words.split(' ').collect(), wanted)
    })
}

#[test]
fn of_trees_tables_rows_and_scans() {
    for (words, wanted) in lines(include_str!("../proved/tf_bench/checksums")) {
        let found = checksum(env!("CARGO_BIN_EXE_plain"), &words);
        assert_eq!(found, wanted, "{words:?}");
    }
}

/// In plain Rust nothing is published or merged, so that both workloads of small batches are one.
#[test]
fn of_a_ledger() {
    for (words, wanted) in lines(include_str!("../proved/tf_ledger_bench/checksums")) {
        let name = words[0].trim_end_matches("_published");
        let found = checksum(env!("CARGO_BIN_EXE_ledger"), &[name, words[1], words[2]]);
        assert_eq!(found, wanted, "{words:?}");
    }
}
