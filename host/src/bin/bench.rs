//! Times the linked libraries and the reference, in the same run and on the same texts and memory:
//! `cargo run --release --bin bench`, with `solve` or `judge` behind it for one of the two alone.
//!
//! `solve` is measured against the reference doing the same scan. The four slices are used again
//! from call to call and are not cleared in between: clearing their first C places is the solver's
//! own work and is timed with it.
//!
//! `judge` is measured against the reference's naive evaluator, on chains where the truth at one end
//! comes from the other. Reading both texts and the loop test are timed with it on both sides.

use std::{
    env,
    process::ExitCode,
    time::{Duration, Instant},
};

use host::{
    families, judge_on, judged_bytes, reference, reference::scan, solve_on, JudgedNumbers, Numbers,
    Sheet, Slices, Table, NONE,
};

/// A family of tables with the sizes that are timed.
struct Family {
    name: &'static str,
    table: fn(usize) -> Vec<u8>,
    sizes: &'static [usize],
}

const FAMILIES: [Family; 10] = [
    Family {
        name: "child chain",
        table: families::chain,
        sizes: &[2, 4, 6, 7, 8],
    },
    Family {
        name: "some descendant",
        table: families::descendants,
        sizes: &[1, 2, 3, 4],
    },
    Family {
        name: "ancestors",
        table: families::ancestors,
        sizes: &[1, 2, 3],
    },
    Family {
        name: "siblings",
        table: families::siblings,
        sizes: &[2, 4, 5, 6, 7],
    },
    Family {
        name: "contradiction",
        table: families::contradiction,
        sizes: &[2, 3, 4, 5, 6],
    },
    Family {
        name: "names alone",
        table: families::names,
        sizes: &[1, 3, 7, 15],
    },
    Family {
        name: "tall tree",
        table: families::counter,
        sizes: &[2, 3, 4, 5],
    },
    Family {
        name: "endless chain",
        table: families::endless,
        sizes: &[6, 8, 10, 12],
    },
    Family {
        name: "shared rows",
        table: families::shared,
        sizes: &[11, 23, 47],
    },
    Family {
        name: "woven rows",
        table: families::woven,
        sizes: &[5, 11, 23],
    },
];

type Solver = fn(&[u8], Slices<'_>) -> Numbers;

/// The slices that both solvers are lent.
struct Bench {
    round: Vec<u16>,
    first: Vec<u16>,
    next: Vec<u16>,
    used: Vec<u8>,
}

impl Bench {
    fn new() -> Bench {
        Bench {
            round: vec![0; Table::CODES],
            first: vec![NONE; Table::CODES],
            next: vec![NONE; Table::CODES],
            used: vec![0; Table::CODES],
        }
    }

    fn time(&mut self, text: &[u8], solver: Solver) -> (f64, Numbers) {
        shortest(|| {
            let lent = Slices {
                round: &mut self.round,
                first: &mut self.first,
                next: &mut self.next,
                used: &mut self.used,
            };
            solver(text, lent)
        })
    }
}

/// A call is made again until this long has passed, at most [`RUNS`] times.
const ENOUGH: Duration = Duration::from_millis(100);
const RUNS: usize = 100;

/// The shortest time of several runs, in milliseconds, and the last result.
fn shortest<T>(mut run: impl FnMut() -> T) -> (f64, T) {
    let begin = Instant::now();
    let mut shortest = Duration::MAX;
    for number in 1.. {
        let start = Instant::now();
        let result = run();
        shortest = shortest.min(start.elapsed());
        if number == RUNS || begin.elapsed() >= ENOUGH {
            return (shortest.as_secs_f64() * 1e3, result);
        }
    }
    unreachable!("runs are counted")
}

fn verdict(numbers: Numbers) -> String {
    match numbers.verdict {
        Numbers::SAT => format!("sat {}", numbers.height),
        Numbers::UNSAT => format!("unsat {}", numbers.height),
        _ => format!("refused {}", numbers.refusal),
    }
}

/// The p for which the time grew as the size to the power of p, from the size before if that was
/// smaller.
fn growth(before: Option<(f64, f64)>, (size, time): (f64, f64)) -> String {
    let smaller = before.filter(|(size_before, _)| *size_before < size);
    smaller.map_or("-".to_string(), |(size_before, time_before)| {
        let p = (time / time_before).ln() / (size / size_before).ln();
        format!("^{p:.2}")
    })
}

/// Times one family, prints a line for each size, and gives the ratios.
fn solve_family(family: &Family, bench: &mut Bench) -> Vec<f64> {
    let mut ratios = Vec::new();
    let mut before = None;
    for size in family.sizes {
        let text = (family.table)(*size);
        let table = Table::read(&text).expect("a family's table can be read");
        let (library, numbers) = bench.time(&text, solve_on);
        let (reference, expected) = bench.time(&text, scan::solve_on);
        assert_eq!(numbers, expected, "{} {size}", family.name);
        let now = (table.codes() as f64, library);
        let ratio = library / reference;
        println!(
            "{:<16}{:>4}{:>4}{:>4}{:>7}  {:<9}{:>12.3}{:>13.3}{:>8.2}{:>9}",
            family.name,
            size,
            table.names(),
            table.looks().len(),
            table.codes(),
            verdict(numbers),
            library,
            reference,
            ratio,
            growth(before, now)
        );
        before = Some(now);
        ratios.push(ratio);
    }
    ratios
}

/// A rule with the chains that it is judged on.
struct Judging {
    name: &'static str,
    table: fn(usize) -> Vec<u8>,
    /// The direction in which the rule looks: 1 down the chain, 3 up.
    direction: usize,
}

const JUDGINGS: [Judging; 4] = [
    Judging {
        name: "down the chain",
        table: families::on_the_way,
        direction: 1,
    },
    Judging {
        name: "up the chain",
        table: families::on_the_way,
        direction: 3,
    },
    Judging {
        name: "to and fro down",
        table: families::to_and_fro,
        direction: 1,
    },
    Judging {
        name: "to and fro up",
        table: families::to_and_fro,
        direction: 3,
    },
];

/// The lines of the chains; the last is the full sheet.
const CHAINS: [usize; 5] = [1, 16, 64, 128, Sheet::LINES];

type Judge = fn(&[u8], &[u8], &mut [u8]) -> JudgedNumbers;

/// Times one rule, prints a line for each chain, and gives the ratios.
fn judge_family(judging: &Judging) -> Vec<f64> {
    let table = (judging.table)(judging.direction);
    let rows = Table::read(&table).map_or(0, |table| table.rows().len());
    let mut out = vec![0; judged_bytes(Sheet::LINES)];
    let mut ratios = Vec::new();
    let mut before = None;
    for lines in CHAINS {
        let end = if judging.direction == 1 { lines - 1 } else { 0 };
        let sheet = families::chain_sheet(lines, end).text();
        let mut time = |judge: Judge| shortest(|| judge(&table, &sheet, &mut out));
        let (library, numbers) = time(judge_on);
        let (reference, expected) = time(reference::judge_on);
        assert_eq!(numbers, expected, "{} {lines}", judging.name);
        let now = (lines as f64, library);
        let ratio = library / reference;
        println!(
            "{:<16}{rows:>5}{lines:>6}{:>12.3}{:>13.3}{:>8.2}{:>9}",
            judging.name,
            library,
            reference,
            ratio,
            growth(before, now)
        );
        before = Some(now);
        ratios.push(ratio);
    }
    ratios
}

fn bench_solve() {
    println!(
        "{:<16}{:>4}{:>4}{:>4}{:>7}  {:<9}{:>12}{:>13}{:>8}{:>9}",
        "family", "size", "N", "m", "C", "answer", "library ms", "reference ms", "ratio", "growth"
    );
    let mut bench = Bench::new();
    let families = FAMILIES.iter();
    summary(families.flat_map(|family| solve_family(family, &mut bench)));
    println!("growth is of the library's time against C, from the size before\n");
}

fn bench_judge() {
    println!(
        "{:<16}{:>5}{:>6}{:>12}{:>13}{:>8}{:>9}",
        "rule", "rows", "lines", "library ms", "reference ms", "ratio", "growth"
    );
    summary(JUDGINGS.iter().flat_map(judge_family));
    println!("growth is of the library's time against the lines, from the chain before\n");
}

fn summary(ratios: impl Iterator<Item = f64>) {
    let ratios: Vec<f64> = ratios.collect();
    let mean = (ratios.iter().map(|ratio| ratio.ln()).sum::<f64>() / ratios.len() as f64).exp();
    let worst = ratios.iter().copied().fold(0.0, f64::max);
    println!("\nratio is library / reference: geometric mean {mean:.2}, worst {worst:.2}");
}

fn main() -> ExitCode {
    let begin = Instant::now();
    match env::args().nth(1).as_deref() {
        Some("solve") => bench_solve(),
        Some("judge") => bench_judge(),
        None => {
            bench_solve();
            bench_judge();
        }
        Some(_) => {
            eprintln!("usage: bench [solve|judge]");
            return ExitCode::from(2);
        }
    }
    println!("whole run {:.1} s", begin.elapsed().as_secs_f64());
    ExitCode::SUCCESS
}
