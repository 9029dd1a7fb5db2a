//! Tables for the tests.
#![allow(dead_code)] // no test file uses all of it
use bulonkeri::Table;

/// One statement of a table to be made: kind, label, hypotheses.
pub struct Statement {
    pub kind: u32,
    pub label: String,
    pub hypotheses: Vec<u32>,
}

/// One entry: statement and children.
pub type Entry = (u32, Vec<u32>);

/// The words and label bytes, with their running sums.
pub fn encode(statements: &[Statement], entries: &[Entry], theorem: u32, qed: u32) -> (Vec<u32>, Vec<u8>) {
    let hypotheses: Vec<u32> = statements.iter().flat_map(|s| s.hypotheses.iter().copied()).collect();
    let children: Vec<u32> = entries.iter().flat_map(|e| e.1.iter().copied()).collect();
    let counts = [statements.len(), hypotheses.len(), entries.len(), children.len()].map(|k| k as u32);
    let [s, h, n, c] = counts;
    let mut words = vec![s, h, n, c, 10, 10 + 5 * s, 10 + 5 * s + h, 10 + 5 * s + h + 3 * n, theorem, qed];
    let mut labels = Vec::new();
    let mut start = 0;
    for statement in statements {
        let count = statement.hypotheses.len() as u32;
        words.extend([statement.kind, labels.len() as u32, statement.label.len() as u32, start, count]);
        labels.extend(statement.label.bytes());
        start += count;
    }
    words.extend(&hypotheses);
    start = 0;
    for (statement, below) in entries {
        words.extend([*statement, start, below.len() as u32]);
        start += below.len() as u32;
    }
    words.extend(&children);
    (words, labels)
}

pub fn statement(kind: u32, label: &str, hypotheses: &[u32]) -> Statement {
    Statement { kind, label: label.to_string(), hypotheses: hypotheses.to_vec() }
}

pub fn e_statements() -> Vec<Statement> {
    vec![
        statement(1, "wa", &[]),
        statement(2, "ha", &[]),
        statement(0, "op", &[3, 4]),
        statement(1, "wx", &[]),
        statement(1, "wy", &[]),
        statement(2, "hx", &[]),
        statement(0, "ru", &[3, 5]),
        statement(0, "th", &[0, 1]),
    ]
}

pub fn e_entries() -> Vec<Entry> {
    vec![(0, vec![]), (2, vec![0, 0]), (2, vec![1, 1]), (1, vec![]), (6, vec![2, 3])]
}

/// Document 01's table E.
pub fn e() -> Table {
    let (words, labels) = encode(&e_statements(), &e_entries(), 7, 4);
    Table::new(words, labels).unwrap()
}

/// Each entry twice the child of the next: as deep as it has entries.
pub fn chain(entries: u32, hypotheses: u32) -> Table {
    let floatings = (0..hypotheses).map(|k| statement(1, &format!("w{k}"), &[]));
    let all: Vec<u32> = (0..hypotheses).collect();
    let statements: Vec<Statement> = floatings.chain([statement(0, "op", &all), statement(0, "th", &all)]).collect();
    let made = (0..entries).map(|k| if k == 0 { (0, vec![]) } else { (hypotheses, vec![k - 1; hypotheses as usize]) });
    let (words, labels) = encode(&statements, &made.collect::<Vec<_>>(), hypotheses + 1, entries - 1);
    Table::new(words, labels).unwrap()
}

/// Numbers that look random and are the same in each run (xorshift).
pub struct Random(pub u64);

impl Random {
    pub fn below(&mut self, limit: usize) -> usize {
        self.0 ^= self.0 << 13;
        self.0 ^= self.0 >> 7;
        self.0 ^= self.0 << 17;
        (self.0 % limit as u64) as usize
    }

    /// A table whose compressed form is not refused: floatings first, then essentials that are all the theorem's.
    pub fn table(&mut self) -> Table {
        let (floatings, essentials) = (1 + self.below(4), self.below(4));
        let hypotheses = floatings + essentials;
        let assertions = 1 + self.below(60);
        let label = |k: usize| format!("{}{k}", "l".repeat(1 + k % 9));
        let mut statements: Vec<Statement> =
            (0..hypotheses).map(|k| statement(if k < floatings { 1 } else { 2 }, &label(k), &[])).collect();
        for k in 0..assertions {
            let list: Vec<u32> = (0..hypotheses as u32).filter(|_| self.below(2) == 0).take(3).collect();
            statements.push(statement(0, &label(hypotheses + k), &list));
        }
        let theorem = statements.len() as u32;
        statements.push(statement(0, "1", &(0..hypotheses as u32).collect::<Vec<_>>()));
        let mut entries: Vec<Entry> = vec![(0, vec![])];
        for k in 1..2 + self.below(80) {
            let chosen = self.below(theorem as usize);
            let children = statements[chosen].hypotheses.iter().map(|_| (k - 1 - self.below(k.min(7))) as u32);
            entries.push((chosen as u32, children.collect()));
        }
        let (words, labels) = encode(&statements, &entries, theorem, entries.len() as u32 - 1);
        Table::new(words, labels).unwrap()
    }
}
