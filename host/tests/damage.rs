//! The library's `judge` against the reference's on damaged texts: every refusal, its place, and the
//! order of refusals. A failure prints both texts; `SEED=n` repeats a run.

mod common;

use common::{
    judged::{compare, compare_at_some_length, compare_safe, need, Tally},
    sheets::{damaged, some_sheet, DAMAGES},
    tables::{damage, some_table},
    Random,
};

/// A table without a fault: the name is 1, or the parent is named 2 or has a next sibling.
const SOUND: &[u8] = b"any\t1\t2\nis\t1\ngo\t3\t3\nany\t4\t5\ngo\t2\t6\nis\t2\nyes\n";

/// Each kind of damage has the outcomes that it should, and no other.
#[test]
fn each_kind_of_damage() {
    let mut random = Random::start("each_kind_of_damage", 44);
    let mut tally = Tally::default();
    for kind in &DAMAGES {
        let mut met = Vec::new();
        for _ in 0..700 {
            let sheet = some_sheet(&mut random);
            let text = damaged(&mut random, &sheet, kind);
            met.push(compare(SOUND, &text, need(&text), &mut tally).refusal);
        }
        met.sort_unstable();
        met.dedup();
        assert_eq!(met, kind.outcomes, "{}", kind.name);
    }
    println!("{tally:?}");
    assert!(tally.calls > 10_000 && tally.refused[9] > 5_000 && tally.refused[10] > 2_500);
}

/// Damaged tables with damaged sheets and short memory: the order of the refusals.
#[test]
fn damage_everywhere() {
    let mut random = Random::start("damage_everywhere", 45);
    let mut tally = Tally::default();
    for _ in 0..8_000 {
        let mut table = some_table(&mut random);
        if random.chance(1, 3) {
            damage(&mut random, &mut table);
        }
        let sheet = some_sheet(&mut random);
        let kind = &DAMAGES[random.below(DAMAGES.len())];
        let mut text = damaged(&mut random, &sheet, kind);
        if random.chance(1, 3) {
            damage(&mut random, &mut text);
        }
        compare_at_some_length(&mut random, &table, &text, &mut tally);
        compare_safe(&table, &text).ok();
    }
    println!("{tally:?}");
    for number in [1, 2, 3, 4, 5, 6, 8, 9, 10] {
        assert!(tally.refused[number] > 0, "refusal {number}");
    }
}

/// Bytes of any kind, and parts of lines one after another.
#[test]
fn bytes_at_random() {
    let mut random = Random::start("bytes_at_random", 46);
    let mut tally = Tally::default();
    let parts: [&[u8]; 9] = [
        b"0\t",
        b"1\t",
        b"-\t",
        b"-\n",
        b"2\n",
        b"\t",
        b"\n",
        b"0\t1\t-\n",
        b"0\t-\t-\n",
    ];
    for _ in 0..4_000 {
        let length = random.below(12);
        let text: Vec<u8> = (0..length).map(|_| random.below(256) as u8).collect();
        compare(SOUND, &text, 100, &mut tally);
        let text: Vec<&[u8]> = (0..length).map(|_| random.pick(&parts)).collect();
        compare(SOUND, &text.concat(), 100, &mut tally);
    }
    println!("{tally:?}");
    assert!(tally.judged > 10 && tally.refused[9] > 7_000 && tally.refused[10] > 20);
}

/// The texts of so many lines whose last two fields are any of these.
fn every_text(lines: usize, fields: &[&str]) -> Vec<String> {
    let mut texts = vec!["".to_string()];
    for _ in 0..lines {
        let mut longer = Vec::new();
        for text in &texts {
            for first in fields {
                longer.extend(
                    fields
                        .iter()
                        .map(|next| format!("{text}0\t{first}\t{next}\n")),
                );
            }
        }
        texts = longer;
    }
    texts
}

/// Of n lines there are n! right ways: line k finds k + 1 free sides to hang from.
#[test]
fn every_way_to_name_lines() {
    let mut tally = Tally::default();
    let fields = ["-", "0", "1", "2", "3", "4"];
    let without_0 = ["-", "1", "2", "3"];
    for (lines, fields, right) in [
        (1, &fields[..], 1),
        (2, &fields, 2),
        (3, &fields, 6),
        (4, &without_0, 24),
    ] {
        let mut judged = 0;
        for text in every_text(lines, fields) {
            let numbers = compare(SOUND, text.as_bytes(), 16, &mut tally);
            judged += usize::from(numbers.refusal == 0);
        }
        assert_eq!(judged, right, "right sheets of {lines} lines");
    }
    println!("{tally:?}");
}
