//! Document 01's example E, with the values that document 01 names.
mod common;
use bulonkeri::{steps, Layout, Step, Style, Table};
use common::{e, e_entries, e_statements, encode};

const E: [u32; 77] = [
    8, 6, 5, 6, 10, 50, 56, 71, 7, 4, 1, 0, 2, 0, 0, 2, 2, 2, 0, 0, 0, 4, 2, 0, 2, 1, 6, 2, 2, 0, 1, 8, 2, 2, 0, 2, 10, 2, 2, 0, 0, 12, 2,
    2, 2, 0, 14, 2, 4, 2, 3, 4, 3, 5, 0, 1, 0, 0, 0, 2, 0, 2, 2, 2, 2, 1, 4, 0, 6, 4, 2, 0, 0, 1, 1, 2, 3,
];

#[test]
fn words_and_labels() {
    assert_eq!(e().words(), E);
    assert_eq!(e().labels(), b"wahaopwxwyhxruth");
    assert_eq!((e().statement_count(), e().entry_count(), e().child_count()), (8, 5, 6));
    assert_eq!(e().label(6), Some("ru"));
    assert_eq!(e().label(8), None);
    assert_eq!(e().entries(), [0, 0, 0, 2, 0, 2, 2, 2, 2, 1, 4, 0, 6, 4, 2]);
    assert_eq!(e().children(), [0, 0, 1, 1, 2, 3]);
}

#[test]
fn parents_and_distances() {
    assert_eq!(e().parents().unwrap(), [2, 2, 1, 1, 0]);
    assert_eq!(e().distances().unwrap(), [3, 2, 1, 1, 0]);
}

#[test]
fn lists() {
    assert_eq!(e().normal_list(false).unwrap().len(), 9 * 5);
    let packed = e().packed_list(false).unwrap();
    let normal = |mark, statement| Step { reference: 0, mark, statement, parent: 0, hypothesis: 0 };
    let reference = Step { reference: 1, mark: 0, statement: 0, parent: 0, hypothesis: 0 };
    let expected = [normal(0, 0), normal(0, 0), normal(1, 2), reference, normal(0, 2), normal(0, 1), normal(0, 6)];
    assert_eq!(steps(&packed).collect::<Vec<_>>(), expected);
    let explicit = e().packed_list(true).unwrap();
    // the second wa fills op's second hypothesis; the root fills none
    assert_eq!(steps(&explicit).nth(1).unwrap(), Step { parent: 3, hypothesis: 1, ..normal(0, 0) });
    assert_eq!(steps(&explicit).last().unwrap(), normal(0, 6));
}

#[test]
fn label_list_and_letters() {
    let compressed = e().letters(Layout::default()).unwrap();
    assert_eq!(compressed.list, [2, 6]);
    assert_eq!(compressed.letters, "AACZECBD");
    let mut entries = e_entries();
    entries.push((2, vec![2, 3]));
    let (words, labels) = encode(&e_statements(), &entries, 7, 4);
    let more = Table::new(words, labels).unwrap();
    assert_eq!(more.letters(Layout::default()).unwrap().letters, "AACZECZBD");
    assert_eq!(more.distances().unwrap(), [3, 2, 1, 1, 0, 65535]);
}

#[test]
fn texts() {
    let texts = Style::ALL.map(|style| e().text(style, Layout::default()).unwrap());
    assert_eq!(texts[0], "      ( op ru ) AACZECBD $.");
    assert_eq!(texts[0].len(), 27);
    assert_eq!(texts[1], "      wa wa op wa wa op op ha ru $.");
    assert_eq!(texts[2], "      wa wa 1:op 1 op ha ru $.");
    assert_eq!(texts[3], "      wx=wa wy=wa wx=op wx=wa wy=wa wy=op wx=op hx=ha th=ru $.");
    assert_eq!(texts[4], "      wx=wa wy=wa 1:wx=op wy=1 wx=op hx=ha th=ru $.");
    let narrow = Layout { width: 16, ..Layout::default() };
    assert_eq!(e().text(Style::Compressed, narrow).unwrap(), "      ( op ru ) \n      AACZECBD\n      $.");
    let after = Layout { first: 5, ..Layout::default() };
    assert_eq!(e().text(Style::Compressed, after).unwrap(), " ( op ru ) AACZECBD $.");
}

#[test]
fn read_back() {
    for list in [e().packed_list(false).unwrap(), e().normal_list(false).unwrap(), e().decode(&[2, 6], b"AACZECBD").unwrap()] {
        let read = e().replay(&list).unwrap();
        assert_eq!((read.entries.len(), read.children.len()), (15, 6));
        assert_eq!(e().with_entries(&read).unwrap(), e());
    }
}
