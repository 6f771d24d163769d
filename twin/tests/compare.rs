//! The comparing program itself: bad use, too few traces, and programs that write
//! something else.

use std::process::{Command, Output};

const TWIN: &str = env!("CARGO_BIN_EXE_twin");

fn compare(arguments: &[&str]) -> Output {
    let mut command = Command::new(env!("CARGO_BIN_EXE_compare"));
    command.args(arguments).output().expect("compare starts")
}

fn words(bytes: &[u8]) -> String {
    String::from_utf8(bytes.to_vec()).expect("plain text")
}

#[test]
fn bad_use_is_one_line_and_status_2() {
    let bad: [&[&str]; 8] = [
        &[],
        &[""],
        &[TWIN, "many"],
        &[TWIN, "1", "-1"],
        &[TWIN, "1", "1", "1"],
        &["./no-such-program"],
        &[env!("CARGO_MANIFEST_DIR")],
        &["false"],
    ];
    for arguments in bad {
        let output = compare(arguments);
        assert_eq!(output.status.code(), Some(2), "{arguments:?}");
        assert_eq!(words(&output.stdout), "", "{arguments:?}");
        let trouble = words(&output.stderr);
        assert!(trouble.starts_with("compare: "), "{trouble}");
        assert_eq!(trouble.lines().count(), 1, "{trouble}");
    }
}

#[test]
fn too_few_traces_fail() {
    let output = compare(&[TWIN, "100", "5"]);
    let report = words(&output.stdout);
    assert_eq!(output.status.code(), Some(1), "{report}");
    assert!(
        report.starts_with("100 traces of seed 5: equal\n"),
        "{report}"
    );
    assert!(report.contains("FAILED: stop=12 was met "), "{report}");
}

#[test]
fn a_program_that_repeats_its_input_fails_on_the_empty_trace() {
    let output = compare(&["cat -u", "100"]);
    let report = words(&output.stdout);
    assert_eq!(output.status.code(), Some(1), "{report}");
    assert!(
        report.contains("the smallest trace found that differs, 0 bytes"),
        "{report}"
    );
    assert!(report.contains("\n  stop=0 Done\n"), "{report}");
}

#[test]
fn a_program_that_always_ends_well_fails_on_a_small_trace() {
    let output = compare(&["echo stop=0 Done", "100"]);
    let report = words(&output.stdout);
    assert_eq!(output.status.code(), Some(1), "{report}");
    assert!(
        report.contains("the smallest trace found that differs, 1 bytes"),
        "{report}"
    );
    assert!(report.contains("\n  stop=11 BadLine\n"), "{report}");
}
