//! Refusals: the numbers, their meanings, and inputs that get them.
mod common;
use bulonkeri::{Layout, Refusal, Style, Table};
use common::{chain, e, e_statements, encode, statement};

/// E with one word changed.
fn changed(at: usize, word: u32) -> Result<Table, Refusal> {
    let mut words = e().words().to_vec();
    words[at] = word;
    Table::new(words, e().labels().to_vec())
}

#[test]
fn numbers_and_meanings() {
    for (refusal, number) in Refusal::ALL.into_iter().zip(1..) {
        assert_eq!(refusal.number(), number);
        assert_eq!(Refusal::from_number(number), Some(refusal));
        assert!(!refusal.to_string().is_empty());
    }
    assert_eq!(Refusal::from_number(0), None);
    assert_eq!(Refusal::from_number(19), None);
    let error: Box<dyn std::error::Error> = Box::new(Refusal::Child);
    assert_eq!(error.to_string(), "a child not below its parent");
}

#[test]
fn tables() {
    assert_eq!(Table::new(vec![], vec![]), Err(Refusal::Header));
    assert_eq!(changed(0, u32::MAX), Err(Refusal::Header));
    assert_eq!(changed(10, 3), Err(Refusal::Statement));
    assert_eq!(Table::new(e().words().to_vec(), b"wahaopwxwyhxru t".to_vec()), Err(Refusal::Label));
    assert_eq!(Table::new(e().words().to_vec(), b"wawaopwxwyhxruth".to_vec()), Err(Refusal::Label));
    assert_eq!(changed(50, 8), Err(Refusal::Hypothesis));
    assert_eq!(changed(56, 8), Err(Refusal::Entry));
    assert_eq!(changed(71, 1), Err(Refusal::Child));
    assert_eq!(changed(8, 0), Err(Refusal::TheoremOrQed));
    let (words, labels) = encode(&e_statements(), &[], 7, 0);
    assert_eq!(Table::new(words, labels), Err(Refusal::TheoremOrQed));
}

#[test]
fn layouts() {
    let default = Layout::default();
    let outside = [
        Layout { width: 256, ..default },
        Layout { width: u32::MAX, ..default },
        Layout { width: 7, ..default },
        Layout { indent: 0, ..default },
        Layout { indent: u32::MAX, ..default },
        Layout { first: 6, ..default },
    ];
    for layout in outside {
        assert_eq!(e().letters(layout), Err(Refusal::Layout));
        for style in Style::ALL {
            assert_eq!(e().text(style, layout), Err(Refusal::Layout));
        }
    }
}

/// A theorem `th` with this list; QED is a use of the first statement.
fn leaf(kind: u32, label: &str, list: &[u32]) -> Table {
    let statements = [statement(kind, label, &[]), statement(1, "wa", &[]), statement(0, "th", list)];
    let (words, labels) = encode(&statements, &[(0, vec![])], 2, 0);
    Table::new(words, labels).unwrap()
}

#[test]
fn compressed_forms() {
    let layout = Layout::default();
    assert_eq!(leaf(2, "he", &[0, 1]).letters(layout), Err(Refusal::FloatingAfterEssential));
    assert_eq!(leaf(2, "he", &[1]).text(Style::Compressed, layout), Err(Refusal::StrayEssential));
    assert_eq!(leaf(2, "he", &[1]).text(Style::Normal, layout).unwrap(), "      he $.");
    assert_eq!(leaf(0, &"a".repeat(74), &[]).letters(layout), Err(Refusal::WideLabel));
    assert_eq!(leaf(0, &"a".repeat(73), &[]).letters(layout).unwrap().list, [0]);
}

#[test]
fn long_normal_lists() {
    // each entry doubles the list: 2^20 - 1 steps are too many, half of them are not
    assert_eq!(chain(20, 2).normal_list(false), Err(Refusal::TooManySteps));
    assert_eq!(chain(20, 2).text(Style::Explicit, Layout::default()), Err(Refusal::TooManySteps));
    assert_eq!(chain(19, 2).normal_list(false).unwrap().len(), 5 * ((1 << 19) - 1));
}

#[test]
fn readers() {
    let step = |reference, mark, statement| [reference, mark, statement, 0, 0];
    assert_eq!(e().replay(&[]), Err(Refusal::Stack));
    assert_eq!(e().replay(&[0; 4]), Err(Refusal::List));
    assert_eq!(e().replay(&step(1, 0, 0)), Err(Refusal::List));
    assert_eq!(e().replay(&step(0, 0, 8)), Err(Refusal::List));
    assert_eq!(e().replay(&step(0, 0, 2)), Err(Refusal::Stack));
    assert_eq!(e().replay(&[step(0, 1, 0), step(1, 0, 0)].concat()), Err(Refusal::Stack));
    assert_eq!(e().decode(&[], b""), Ok(vec![]));
    assert_eq!(e().decode(&[0], b"A"), Err(Refusal::List));
    assert_eq!(e().decode(&[2, 2], b"A"), Err(Refusal::List));
    for letters in [&b"C"[..], b"a", b"Z", b"AZZ", b"AU", "Ä".as_bytes()] {
        assert_eq!(e().decode(&[], letters), Err(Refusal::Letters));
    }
    // more entries than a table may have
    let mut deep = step(0, 0, 0).to_vec();
    deep.extend(step(0, 0, 1).repeat(8192));
    assert_eq!(chain(2, 1).replay(&deep), Err(Refusal::Output));
}

#[test]
fn entries_that_make_no_table() {
    let mut read = e().replay(&e().packed_list(false).unwrap()).unwrap();
    read.children[0] = 4;
    assert_eq!(e().with_entries(&read), Err(Refusal::Child));
    read.entries.clear();
    read.children.clear();
    assert_eq!(e().with_entries(&read), Err(Refusal::TheoremOrQed));
}
