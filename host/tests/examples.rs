//! The examples and the page for planners: every answer that is shown there is the true one.

mod common;

use std::{env, fs, process::Command};

use common::programs::{run, ROOT, SHEETSAT};
use host::{judge_on, judged_bytes, listing, reference, solve, Answer, Memory, Sheet, Slices};

const PAGE: &str = concat!(env!("CARGO_MANIFEST_DIR"), "/../docs/TABLES.md");

fn file(path: &str) -> Vec<u8> {
    fs::read(format!("{ROOT}/{path}")).expect("an example can be read")
}

fn example(name: &str) -> Vec<u8> {
    file(&format!("examples/{name}.tbl"))
}

/// The library's answer, which is the reference's as well.
fn answer_of(text: &[u8]) -> Answer {
    let (mut round, mut first, mut next) = ([0; SHEETSAT], [0; SHEETSAT], [0; SHEETSAT]);
    let lent = Slices {
        round: &mut round,
        first: &mut first,
        next: &mut next,
        used: &mut [0; SHEETSAT],
    };
    let answer = solve(text, &mut Memory::with_places(SHEETSAT));
    assert_eq!(answer.numbers(), reference::solve_on(text, lent));
    answer
}

fn answer(name: &str) -> Answer {
    answer_of(&example(name))
}

#[test]
fn wrong_rules_are_sat_and_right_ones_unsat() {
    let sat = |height, top| Answer::Sat { height, top };
    assert_eq!(answer("full-exchanger"), sat(4, 137));
    assert_eq!(answer("inlet-under-previous-harbour"), sat(4, 1250));
    assert_eq!(answer("inlet-straight-under-call"), sat(3, 626));
    assert_eq!(
        answer("inlet-under-own-harbour"),
        Answer::Unsat { rounds: 2 }
    );
    assert_eq!(
        answer("outlet-first-in-paired-sheet"),
        Answer::Unsat { rounds: 4 }
    );
    assert_eq!(answer("call-inside-call"), sat(2, 273));
}

#[test]
fn the_wrong_rule_shows_the_inlet_under_the_previous_harbour() {
    const CALL: usize = 1;
    const EXCHANGER: usize = 0;
    const INLET: usize = 2;
    const OUTLET: usize = 3;
    let mut memory = Memory::with_places(SHEETSAT);
    solve(&example("inlet-under-previous-harbour"), &mut memory);
    let tree = memory.tree().expect("sat shows a tree");
    let drawn: Vec<(usize, usize)> = tree.nodes().map(|node| (node.depth, node.name)).collect();
    let previous = [(0, CALL), (1, EXCHANGER), (2, INLET)];
    let own = [(0, CALL), (1, EXCHANGER), (2, OUTLET)];
    assert_eq!(drawn, [previous, own].concat());
}

/// A fenced block of the page: the word behind the fence, and the lines.
struct Block<'a> {
    word: &'a str,
    lines: Vec<&'a str>,
}

fn blocks(page: &str) -> Vec<Block<'_>> {
    let mut blocks = Vec::new();
    let mut lines = page.lines();
    while let Some(line) = lines.next() {
        if let Some(word) = line.strip_prefix("```") {
            let lines = lines.by_ref().take_while(|line| *line != "```").collect();
            blocks.push(Block { word, lines });
        }
    }
    blocks
}

/// What `sheetjudge` prints of a table and a sheet, by the library and by the reference.
fn judged(table: &[u8], sheet: &[u8]) -> String {
    let mut out = vec![0; judged_bytes(Sheet::LINES)];
    let mut same = out.clone();
    let numbers = judge_on(table, sheet, &mut out);
    assert_eq!(numbers, reference::judge_on(table, sheet, &mut same));
    assert_eq!(out, same);
    if numbers.refusal != 0 {
        return format!("refused\t{}\t{}\n", numbers.refusal, numbers.place);
    }
    out.truncate(numbers.written as usize);
    String::from_utf8(out).expect("judge writes text")
}

/// What a command of the page prints, with this table on its standard input; `this.sheet` is the sheet above it.
fn printed(command: &str, table: &[u8], sheet: &[u8]) -> String {
    if command == "sheetsat" {
        return listing(table, &mut Memory::with_places(SHEETSAT));
    }
    if let Some(names) = command.strip_prefix("sheetjudge ") {
        let (rule, lines) = names.split_once(' ').expect("two file names");
        return match lines {
            "this.sheet" => judged(&file(rule), sheet),
            _ => judged(&file(rule), &file(lines)),
        };
    }
    let planner = std::path::Path::new(env!("CARGO_BIN_EXE_planner"));
    let folder = planner.parent().expect("a program is in a folder");
    let path = env::var("PATH").unwrap_or_default();
    let mut shell = Command::new("sh");
    shell
        .args(["-c", command])
        .current_dir(ROOT)
        .env("PATH", format!("{}:{path}", folder.display()));
    let output = run(&mut shell, table);
    String::from_utf8(output.stdout).expect("planner writes text")
}

fn text_of(lines: &[&str]) -> Vec<u8> {
    let closed = lines.iter().flat_map(|line| [line.as_bytes(), b"\n"]);
    closed.collect::<Vec<_>>().concat()
}

#[test]
fn the_page_shows_true_answers() {
    let page = fs::read_to_string(PAGE).expect("the page can be read");
    let (mut table, mut sheet) = (Vec::new(), Vec::new());
    let mut commands = 0;
    for block in blocks(&page) {
        match block.word {
            "tbl" => {
                table = text_of(&block.lines);
                answer_of(&table);
            }
            "sheet" => sheet = text_of(&block.lines),
            "console" => {
                let command = block.lines[0].strip_prefix("$ ").expect("a command");
                let shown = text_of(&block.lines[1..]);
                let shown = String::from_utf8(shown).expect("the page is text");
                assert_eq!(printed(command, &table, &sheet), shown, "{command}");
                commands += 1;
            }
            _ => {}
        }
    }
    assert!(commands >= 20, "only {commands} commands were found");
}

/// An example is shown row by row with a remark behind each; the rows must be those of the file that the next command names.
#[test]
fn the_page_shows_the_examples_as_they_are() {
    let page = fs::read_to_string(PAGE).expect("the page can be read");
    let blocks = blocks(&page);
    let mut shown = 0;
    for (at, block) in blocks.iter().enumerate() {
        let ending = match block.word {
            "text" => ".tbl",
            "lines" => ".sheet",
            _ => continue,
        };
        let command = blocks[at..].iter().find(|block| block.word == "console");
        let mut words = command.expect("a command").lines[0].split(' ');
        let name = words.find(|word| word.ends_with(ending)).expect("a file");
        let rows = block.lines.iter().enumerate().map(|(row, line)| {
            let (number, rest) = line.trim_start().split_once("  ").expect("a number");
            assert_eq!(number, row.to_string(), "{name}");
            rest.split("  ").next().expect("a row").replace(' ', "\t")
        });
        let rows: Vec<String> = rows.collect();
        let rows: Vec<&str> = rows.iter().map(String::as_str).collect();
        assert_eq!(text_of(&rows), file(name), "{name}");
        shown += 1;
    }
    assert_eq!(shown, 8);
}

/// The gate runs `sheetjudge` on copies of two examples, since a program sees nothing but its own folder.
#[test]
fn sheetjudge_runs_on_the_examples() {
    for name in ["outlet-compared-abroad.tbl", "last-week.sheet"] {
        let copy = file(&format!("crates/sheetjudge/data/{name}"));
        assert_eq!(copy, file(&format!("examples/{name}")), "{name}");
    }
}
