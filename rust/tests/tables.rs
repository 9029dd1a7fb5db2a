//! Random and deep tables: what is written must read back.
mod common;
use bulonkeri::{steps, Layout, Style, Table};
use common::{chain, Random};
use std::thread;

/// The words of a text, and that no line of it is too long.
fn words_of(text: &str, layout: Layout, compressed: bool) -> Vec<&str> {
    if compressed {
        assert!(text.lines().all(|line| line.len() <= layout.width as usize), "{text}");
    }
    let words: Vec<&str> = text.split_ascii_whitespace().collect();
    assert_eq!(words.last(), Some(&"$."));
    words[..words.len() - 1].to_vec()
}

fn reads_back(table: &Table, layout: Layout) {
    let packed = table.packed_list(false).unwrap();
    let compressed = table.letters(layout).unwrap();
    assert_eq!(table.decode(&compressed.list, compressed.letters.as_bytes()).unwrap(), packed);

    let text = table.text(Style::Compressed, layout).unwrap();
    let words = words_of(&text, layout, true);
    let (list, letters) = words.split_at(1 + compressed.list.len());
    let labels: Vec<&str> = compressed.list.iter().map(|&k| table.label(k).unwrap()).collect();
    assert_eq!((list[0], &list[1..]), ("(", &labels[..]));
    assert_eq!((letters[0], letters[1..].concat()), (")", compressed.letters));

    let new = table.with_entries(&table.replay(&packed).unwrap()).unwrap();
    // the new table is one that reading gives, so reading it gives itself
    assert_eq!(new.with_entries(&new.replay(&new.packed_list(false).unwrap()).unwrap()).unwrap(), new);
    assert_eq!(words_of(&table.text(Style::Packed, layout).unwrap(), layout, false).len(), packed.len() / 5);

    if let Ok(normal) = table.normal_list(false) {
        assert_eq!(table.with_entries(&table.replay(&normal).unwrap()).unwrap(), new);
        let labels: Vec<&str> = steps(&normal).map(|step| table.label(step.statement).unwrap()).collect();
        assert_eq!(words_of(&table.text(Style::Normal, layout).unwrap(), layout, false), labels);
        assert_eq!(new.normal_list(false).unwrap(), normal);
    }
}

#[test]
fn random_tables() {
    let mut random = Random(1);
    for k in 0..300 {
        let layout = Layout { width: 20 + k % 200, indent: 1 + k % 7, first: 0 };
        reads_back(&random.table(), layout);
    }
}

#[test]
fn deepest_tables() {
    // the library's recursion is as deep as the table: README.md says how much stack that needs
    let deep = thread::Builder::new().stack_size(4 << 20).spawn(|| {
        for hypotheses in [1, 2, 7] {
            reads_back(&chain(8192, hypotheses), Layout::default());
        }
    });
    deep.unwrap().join().unwrap();
}

#[test]
fn calls_from_threads() {
    let table = Random(3).table();
    let text = table.text(Style::Packed, Layout::default()).unwrap();
    thread::scope(|scope| {
        for _ in 0..4 {
            scope.spawn(|| assert_eq!(table.text(Style::Packed, Layout::default()).unwrap(), text));
        }
    });
}
