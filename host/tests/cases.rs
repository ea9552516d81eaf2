//! The reference tables of the specification's section 8, with every number given there.

use host::{listing, solve, Answer, Memory, Refusal};

/// A table as section 8 writes it: rows parted by `;`, fields by blanks.
fn text(rows: &str) -> Vec<u8> {
    let mut text = Vec::new();
    for row in rows.split(';') {
        text.extend(row.trim().replace(' ', "\t").bytes());
        text.push(b'\n');
    }
    text
}

fn answer(rows: &str) -> Answer {
    solve(&text(rows), &mut Memory::largest())
}

fn sat(height: u32, top: u16) -> Answer {
    Answer::Sat { height, top }
}

fn unsat(rounds: u32) -> Answer {
    Answer::Unsat { rounds }
}

fn refused(number: u32, place: u32) -> Answer {
    Answer::Refused(Refusal::new(number, place).expect("a refusal"))
}

/// `count` lines `go 1 0`.
fn looks(count: usize) -> Vec<u8> {
    b"go\t1\t0\n".repeat(count)
}

#[test]
fn cases_1_to_4_are_about_one_node() {
    assert_eq!(answer("yes"), sat(1, 0));
    assert_eq!(answer("no"), unsat(2));
    assert_eq!(answer("is 1"), sat(1, 16));
    assert_eq!(answer("all 1 2; is 1; is 2"), unsat(2));
}

#[test]
fn a_name_that_is_not_0_needs_another_name_to_be() {
    assert_eq!(answer("isnot 0"), unsat(2));
}

#[test]
fn case_5_shows_a_first_child() {
    let mut memory = Memory::for_table(&text("go 1 1; is 1"));
    let listed = listing(&text("go 1 1; is 1"), &mut memory);
    assert_eq!(listed, "sat\t2\t3\n40\t1\t-\t-\n3\t0\t40\t-\n");
    let tree = memory.tree().expect("sat shows a tree");
    assert_eq!((tree.first(3), tree.next(3)), (Some(40), None));
}

#[test]
fn case_6_has_no_parent_at_the_top() {
    assert_eq!(answer("go 3 1; yes"), unsat(2));
}

#[test]
fn cases_7_and_8_are_least_solutions() {
    assert_eq!(answer("any 1 2; is 1; go 1 0"), sat(1, 32));
    assert_eq!(answer("go 1 0"), unsat(2));
}

#[test]
fn case_9_looks_back_at_the_parent() {
    let rows = text("go 1 1; all 2 3; is 1; go 3 4; is 2");
    let mut memory = Memory::for_table(&rows);
    assert_eq!(solve(&rows, &mut memory), sat(2, 133));
    let tree = memory.tree().expect("sat shows a tree");
    assert_eq!(tree.first(133), Some(82));
    assert_eq!((tree.name(133), tree.name(82)), (2, 1));
}

/// The codes 82 and 133 of case 9 are beyond those of case 5.
#[test]
fn case_5_after_case_9_shows_nothing_of_it() {
    let mut memory = Memory::with_places(4096);
    let rows = text("go 1 1; all 2 3; is 1; go 3 4; is 2");
    let listed = listing(&rows, &mut memory);
    assert_eq!(listed, "sat\t2\t133\n82\t1\t-\t-\n133\t2\t82\t-\n");
    let listed = listing(&text("go 1 1; is 1"), &mut memory);
    assert_eq!(listed, "sat\t2\t3\n40\t1\t-\t-\n3\t0\t40\t-\n");
}

#[test]
fn case_10_prints_the_whole_listing() {
    let rows = text("all 1 2; go 1 3; go 2 3; yes");
    let listed = listing(&rows, &mut Memory::with_places(4096));
    assert_eq!(
        listed,
        "sat\t2\t15\n16\t0\t-\t-\n32\t0\t-\t-\n15\t0\t16\t32\n"
    );
}

#[test]
fn case_11_walks_1_and_4_and_is_no_loop() {
    assert_eq!(answer("go 1 1; go 4 0"), unsat(2));
}

#[test]
fn case_12_is_refused_for_its_loops() {
    assert_eq!(answer("any 0 0"), refused(6, 0));
    assert_eq!(answer("go 1 1; go 3 0"), refused(6, 0));
}

#[test]
fn case_13_is_refused_for_its_lines() {
    assert_eq!(answer("go 1 5"), refused(5, 0));
    assert_eq!(answer("is 16"), refused(4, 0));
    assert_eq!(answer("go 5 0"), refused(4, 0));
    assert_eq!(answer("is 01"), refused(2, 0));
    let mut memory = Memory::largest();
    assert_eq!(solve(b"yes", &mut memory), refused(2, 0));
    assert_eq!(solve(b"", &mut memory), refused(1, 0));
}

#[test]
fn case_14_stands_at_the_limit_of_codes() {
    let twelve = looks(12);
    let mut memory = Memory::for_table(&twelve);
    assert_eq!(memory.places(), 65_536);
    // As case 8: no finite tree, and only bits of 0 are ever entered.
    assert_eq!(solve(&twelve, &mut memory), unsat(2));
    assert_eq!(solve(&looks(13), &mut memory), refused(7, 0));
}

#[test]
fn case_14_stands_at_the_limit_of_sheetsat() {
    let mut sheetsat = Memory::with_places(4096);
    assert_eq!(listing(&looks(8), &mut sheetsat), "unsat\t2\n");
    assert_eq!(listing(&looks(9), &mut sheetsat), "refused\t8\t0\n");
}

#[test]
fn refusals_come_in_the_order_of_section_6() {
    let mut memory = Memory::with_places(0);
    let mut refusal = |text: &[u8]| solve(text, &mut memory);
    let yes = |count: usize| b"yes\n".repeat(count);
    assert_eq!(refusal(&yes(49)), refused(3, 48));
    assert_eq!(refusal(&[yes(48), b"?".to_vec()].concat()), refused(3, 48));
    assert_eq!(refusal(&[yes(47), b"?".to_vec()].concat()), refused(2, 47));
    assert_eq!(refusal(b"go\t5\t001\n"), refused(2, 0));
    assert_eq!(refusal(b"is\t16\nmaybe\n"), refused(4, 0));
    assert_eq!(refusal(b"any\t0\t0\nany\t0\t2\n"), refused(5, 1));
    let loop_of_thirteen = [looks(13), b"any\t13\t13\n".to_vec()].concat();
    assert_eq!(refusal(&loop_of_thirteen), refused(6, 13));
    assert_eq!(refusal(&looks(13)), refused(7, 0));
    assert_eq!(refusal(b"yes\n"), refused(8, 0));
}
