//! The program `planner` as a planner runs it.

mod common;

use std::process::{Command, Output};

use common::programs::{run, TextFile};

/// Runs `planner` with these arguments on this standard input.
fn planner(arguments: &[&str], input: &[u8]) -> Output {
    run(
        Command::new(env!("CARGO_BIN_EXE_planner")).args(arguments),
        input,
    )
}

fn text(bytes: &[u8]) -> &str {
    std::str::from_utf8(bytes).expect("planner writes text")
}

const TWO_CHILDREN: &[u8] = b"go\t1\t1\nall\t2\t3\nis\t1\ngo\t2\t4\nis\t2\n";

#[test]
fn draws_the_tree_of_standard_input() {
    for arguments in [&[][..], &["-"]] {
        let output = planner(arguments, TWO_CHILDREN);
        assert_eq!(output.status.code(), Some(0));
        assert_eq!(
            text(&output.stdout),
            "standard input: sat: a tree makes row 0 true at its top, height 3, top code 5\n\
             0  (code 5)  <- row 0 is true here\n\
             ├─ 1  (code 90)\n\
             └─ 2  (code 160)\n"
        );
    }
}

#[test]
fn draws_no_more_nodes_than_asked_for() {
    let output = planner(&["--nodes", "1"], TWO_CHILDREN);
    assert_eq!(output.status.code(), Some(0));
    assert!(text(&output.stdout).ends_with("here\n… and 2 more\n"));
}

#[test]
fn reports_on_every_file_and_gives_the_worst_status() {
    let unsat = TextFile::new("unsat.tbl", b"no\n");
    let wrong = TextFile::new("wrong.tbl", b"no\nis 1\n");
    let solved = planner(&[unsat.path(), unsat.path()], b"");
    assert_eq!(solved.status.code(), Some(0));
    assert_eq!(text(&solved.stdout).matches(": unsat: ").count(), 2);

    let refused = planner(&[wrong.path(), unsat.path()], b"");
    assert_eq!(refused.status.code(), Some(1));
    assert!(text(&refused.stdout).contains("refused 2 at 1: "));
    assert!(text(&refused.stdout).contains("\n  line 1: is 1\n"));
    assert!(text(&refused.stdout).contains(": unsat: "));

    let missing = planner(&["no-such-file.tbl", wrong.path(), unsat.path()], b"");
    assert_eq!(missing.status.code(), Some(2));
    assert!(text(&missing.stderr).contains("cannot read no-such-file.tbl"));
    assert!(text(&missing.stdout).contains(": unsat: "));
}

#[test]
fn says_how_it_is_used() {
    for arguments in [&["--node"][..], &["--nodes"], &["--nodes", "many"]] {
        let output = planner(arguments, b"yes\n");
        assert_eq!(output.status.code(), Some(2));
        assert!(text(&output.stderr).starts_with("usage: planner"));
        assert!(output.stdout.is_empty());
    }
}
