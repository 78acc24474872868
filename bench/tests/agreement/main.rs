//! The ledger in plain Rust answers scripts as the proved one does.

mod random;
mod worked;

use plain::ledger::Outcome;
use plain::script;
use std::collections::BTreeSet;
use std::fs;
use std::path::Path;
use std::process::Command;
use worked::Row;

/// How many random scripts are run.
const RANDOM_SCRIPTS: u64 = 2_000;

/// Asserts that each script prints its output.
fn assert_answered(rows: &[Row]) {
    for row in rows {
        assert_eq!(script::answer(&row.script), row.output, "{}", row.name);
    }
}

#[test]
fn recipes_print_their_output() {
    let rows = worked::scripts_in(&worked::top().join("examples"));
    assert!(rows.len() >= 12);
    assert_answered(&rows);
}

/// Those that run: the plain reader of scripts is for scripts without a fault.
#[test]
fn worked_scripts_print_their_output() {
    let mut rows = worked::scripts_in(&worked::top().join("crates/tf_worked/data"));
    rows.retain(|row| !row.output.contains("bad line "));
    assert!(rows.len() > 80);
    assert_answered(&rows);
}

/// The names of the results that stand in an answer.
fn results_in(answer: &str) -> BTreeSet<String> {
    let names = answer.lines().filter_map(|line| line.split_once(' '));
    let results = names.filter(|(first, _)| first.bytes().all(|byte| byte.is_ascii_digit()));
    results.map(|(_, name)| name.to_string()).collect()
}

/// The names of all results.
fn all_results() -> BTreeSet<String> {
    Outcome::ALL
        .iter()
        .map(|outcome| outcome.name().to_string())
        .collect()
}

#[test]
fn results_are_those_of_the_proved_ledger() {
    let text = worked::read(&worked::top().join("crates/tf_records/src/outcome.rt"));
    let quoted = text.split('"').skip(1).step_by(2);
    let names = quoted.filter(|name| *name != "ok").map(str::to_string);
    assert_eq!(names.collect::<BTreeSet<_>>(), all_results());
}

/// The output of `every-result.script` was printed by the proved program.
#[test]
fn every_result_comes_as_the_proved_ledger_gives_it() {
    let folder = Path::new(env!("CARGO_MANIFEST_DIR")).join("tests/agreement");
    let rows = worked::scripts_in(&folder);
    assert_answered(&rows);
    let answers = rows.iter().map(|row| results_in(&row.output));
    assert_eq!(answers.flatten().collect::<BTreeSet<_>>(), all_results());
}

#[test]
fn random_scripts_have_every_result() {
    let answers = (0..RANDOM_SCRIPTS).map(|seed| script::answer(&random::script(seed)));
    let results = answers.flat_map(|answer| results_in(&answer));
    assert_eq!(results.collect::<BTreeSet<_>>(), all_results());
}

/// What the proved program prints where it runs a script.
fn proved_answer(program: &Path, script: &Path) -> String {
    let run = Command::new(program).arg("run").arg(script).output();
    let run = run.unwrap_or_else(|error| panic!("{}: {error}", program.display()));
    assert!(run.status.success(), "{}", script.display());
    String::from_utf8(run.stdout).expect("the program prints text")
}

#[test]
#[ignore = "the proved program takes minutes to build"]
fn random_scripts_print_what_the_proved_ledger_prints() {
    let top = worked::top();
    let script = top.join("examples/first-transfer.script");
    // builds the program where it isn't there or is older than its sources
    proved_answer(&top.join("tigerforest"), &script);
    let program = top.join("crates/tigerforest/out/tigerforest");
    let path = Path::new(env!("CARGO_TARGET_TMPDIR")).join("random.script");
    for seed in 0..RANDOM_SCRIPTS {
        let text = random::script(seed);
        fs::write(&path, &text).expect("the folder can be written");
        let proved = proved_answer(&program, &path);
        assert_eq!(script::answer(&text), proved, "the script of seed {seed}");
    }
}
