//! A good table, and the file that holds one.
use crate::ffi::{self, Parts};
use crate::Refusal;
use std::io::{self, Read, Write};
use std::{error, fmt};

const HEADER: usize = 10;
const STATEMENT: usize = 5;
const ENTRY: usize = 3;
const WORD_BYTES: usize = 4;

/// The words and label bytes of one proof, which document 01's check has found good: a `Table` that exists is not refused 1 to 7.
#[derive(Clone, Debug, PartialEq, Eq, Hash)]
pub struct Table {
    words: Vec<u32>,
    labels: Vec<u8>,
}

impl Table {
    /// Checks the table; a refusal is 1 to 7.
    pub fn new(words: Vec<u32>, labels: Vec<u8>) -> Result<Table, Refusal> {
        ffi::check(Parts { words: &words, labels: &labels })?;
        Ok(Table { words, labels })
    }

    /// Reads a table file to the end of `source`: a u32 little-endian count of words, that many u32 little-endian words, label bytes.
    pub fn read_from(source: &mut impl Read) -> Result<Table, ReadError> {
        let mut bytes = Vec::new();
        source.read_to_end(&mut bytes).map_err(ReadError::Io)?;
        let (count, rest) = bytes.split_at_checked(WORD_BYTES).ok_or(ReadError::CutShort)?;
        let length = word(count) as usize;
        let (words, labels) = length.checked_mul(WORD_BYTES).and_then(|k| rest.split_at_checked(k)).ok_or(ReadError::CutShort)?;
        Table::new(words.chunks_exact(WORD_BYTES).map(word).collect(), labels.to_vec()).map_err(ReadError::Refused)
    }

    /// Writes the table as a table file.
    pub fn write_to(&self, target: &mut impl Write) -> io::Result<()> {
        let mut bytes = Vec::with_capacity(WORD_BYTES * (1 + self.words.len()) + self.labels.len());
        // a good table has fewer than 2^18 words
        bytes.extend_from_slice(&(self.words.len() as u32).to_le_bytes());
        for word in &self.words {
            bytes.extend_from_slice(&word.to_le_bytes());
        }
        bytes.extend_from_slice(&self.labels);
        target.write_all(&bytes)
    }

    /// All words: the header's ten, statements, hypothesis references, entries, child references.
    pub fn words(&self) -> &[u32] {
        &self.words
    }

    /// The labels, one after another.
    pub fn labels(&self) -> &[u8] {
        &self.labels
    }

    /// The number of statements.
    pub fn statement_count(&self) -> usize {
        self.words[0] as usize
    }

    /// The number of entries.
    pub fn entry_count(&self) -> usize {
        self.words[2] as usize
    }

    /// The number of child references.
    pub fn child_count(&self) -> usize {
        self.words[3] as usize
    }

    /// The label of a statement; none where the number is no statement's.
    pub fn label(&self, statement: u32) -> Option<&str> {
        let statement = statement as usize;
        if statement >= self.statement_count() {
            return None;
        }
        let record = &self.words[HEADER + STATEMENT * statement..][..STATEMENT];
        let label = &self.labels[record[1] as usize..][..record[2] as usize];
        Some(std::str::from_utf8(label).expect("the check leaves no label byte outside ASCII"))
    }

    /// Three words for each entry: statement, child start, child count.
    pub fn entries(&self) -> &[u32] {
        &self.words[self.words[6] as usize..][..ENTRY * self.entry_count()]
    }

    /// The child references of all entries.
    pub fn children(&self) -> &[u32] {
        &self.words[self.words[7] as usize..]
    }

    pub(crate) fn parts(&self) -> Parts<'_> {
        Parts { words: &self.words, labels: &self.labels }
    }

    /// The working words that every writer asks for: 8 × (n + c + s + 1), whatever they hold.
    pub(crate) fn working(&self) -> Vec<u32> {
        vec![0; 8 * (self.entry_count() + self.child_count() + self.statement_count() + 1)]
    }
}

fn word(bytes: &[u8]) -> u32 {
    u32::from_le_bytes(bytes.try_into().expect("four bytes"))
}

/// Why a table file gave no table.
#[derive(Debug)]
pub enum ReadError {
    /// The file could not be read.
    Io(io::Error),
    /// The file ends inside its words.
    CutShort,
    /// The table is refused.
    Refused(Refusal),
}

impl fmt::Display for ReadError {
    fn fmt(&self, f: &mut fmt::Formatter<'_>) -> fmt::Result {
        match self {
            ReadError::Io(fault) => fault.fmt(f),
            ReadError::CutShort => f.write_str("the file ends inside its words"),
            ReadError::Refused(refusal) => write!(f, "refused {}: {refusal}", refusal.number()),
        }
    }
}

impl error::Error for ReadError {
    fn source(&self) -> Option<&(dyn error::Error + 'static)> {
        match self {
            ReadError::Io(fault) => Some(fault),
            ReadError::CutShort => None,
            ReadError::Refused(refusal) => Some(refusal),
        }
    }
}
