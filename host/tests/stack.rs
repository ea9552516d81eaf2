//! The programs with the stack of a handheld: 128 KiB, their own arrays included.
//!
//! Each stands in its crate's `out`, where `rt ci` and `rt run` put it.

mod common;

use std::{
    fs,
    os::unix::process::ExitStatusExt,
    path::Path,
    process::{Command, Output},
};

use common::programs::{run, TextFile, ROOT, SHEETSAT};
use host::{families, listing, Memory, Sheet};

/// The signal of a process that goes beyond its stack.
const SIGSEGV: i32 = 11;

/// Runs a program with a stack of so many KiB, for a minute at most: a program that follows shared
/// rows anew each time would not end.
fn with_stack(kib: usize, program: &str, arguments: &[&str], input: &[u8]) -> Output {
    let path = format!("{ROOT}/crates/{program}/out/{program}");
    assert!(
        Path::new(&path).exists(),
        "{path} is not there: run `rt run` in crates/{program}"
    );
    let limited = format!("ulimit -t 60 && ulimit -s {kib} && exec \"$0\" \"$@\"");
    let mut shell = Command::new("sh");
    shell
        .args(["-c", &limited, &path])
        .args(arguments)
        // It would lie on the stack as well.
        .env_clear();
    run(&mut shell, input)
}

/// What a program prints with a stack of 128 KiB.
fn printed(program: &str, arguments: &[&str], input: &[u8]) -> String {
    let output = with_stack(128, program, arguments, input);
    assert!(output.status.success(), "{program}: {}", output.status);
    String::from_utf8(output.stdout).expect("a program prints text")
}

fn sheetsat(table: &[u8]) -> String {
    printed("sheetsat", &[], table)
}

/// The longest way through rows of one code, 47 steps, and 2^47 ways in all.
#[test]
fn rows_that_double() {
    assert_eq!(sheetsat(&families::shared(47)), "unsat\t2\n");
}

/// As many codes as `sheetsat` has places for.
#[test]
fn eight_looks() {
    assert_eq!(sheetsat(&families::endless(8)), "unsat\t2\n");
}

/// As many rows, looks and codes as `sheetsat` takes: 39 rows that double, eight looks down one
/// after another, and `yes`. A node above a chain of k first children has the last k bits set; its
/// flags are 4 at the chain's end, 1 at the top and 5 between.
#[test]
fn rows_that_double_above_eight_looks() {
    let row = |number: usize| {
        let next = number + 1;
        match number {
            47 => "yes\n".to_string(),
            39..47 => format!("go\t1\t{next}\n"),
            _ => format!("{}\t{next}\t{next}\n", ["any", "all"][number % 2]),
        }
    };
    let table: String = (0..48).map(row).collect();
    assert_eq!(
        sheetsat(table.as_bytes()),
        "sat\t9\t511\n\
         1024\t0\t-\t-\n\
         1408\t0\t1024\t-\n\
         1472\t0\t1408\t-\n\
         1504\t0\t1472\t-\n\
         1520\t0\t1504\t-\n\
         1528\t0\t1520\t-\n\
         1532\t0\t1528\t-\n\
         1534\t0\t1532\t-\n\
         511\t0\t1534\t-\n"
    );
}

/// What is printed is what the library answers when the planner calls it.
#[test]
fn examples() {
    let mut memory = Memory::with_places(SHEETSAT);
    let mut tables = 0;
    for file in fs::read_dir(format!("{ROOT}/examples")).expect("the examples") {
        let path = file.expect("a file").path();
        if path.extension().is_some_and(|ending| ending == "tbl") {
            let table = fs::read(&path).expect("an example can be read");
            assert_eq!(sheetsat(&table), listing(&table, &mut memory), "{path:?}");
            tables += 1;
        }
    }
    assert_eq!(tables, 7);
}

/// The full sheet by the rule whose truth comes from farthest: the way down ends everywhere.
#[test]
fn the_longest_dependency_on_a_full_sheet() {
    let table = TextFile::new("to-and-fro.tbl", &families::to_and_fro(1));
    let sheet = families::chain_sheet(Sheet::LINES, 0).text();
    let sheet = TextFile::new("full.sheet", &sheet);
    let expected: String = (0..Sheet::LINES)
        .map(|line| format!("{line}\t1\n"))
        .collect();
    let judged = printed("sheetjudge", &[table.path(), sheet.path()], b"");
    assert_eq!(judged, expected);
}

/// The limit is felt: the four arrays of `sheetsat` alone take 28 KiB.
#[test]
fn a_stack_that_is_too_small() {
    let output = with_stack(16, "sheetsat", &[], b"yes\n");
    assert_eq!(output.status.signal(), Some(SIGSEGV));
}
