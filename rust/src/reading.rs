//! Reading step lists and letters back.
use crate::lists::STEP;
use crate::{ffi, Refusal, Table};

/// Document 01's limits for a table, over which replay refuses 15.
const MAX_ENTRIES: usize = 8_192;
const MAX_CHILDREN: usize = 65_535;
const ENTRY: usize = 3;

/// What a step list was read into: the entries of a new table, of which the last is its QED, and their children.
#[derive(Clone, Debug, PartialEq, Eq, Hash)]
pub struct Entries {
    /// Three words for each entry: statement, child start, child count.
    pub entries: Vec<u32>,
    /// The child references of all entries.
    pub children: Vec<u32>,
}

impl Table {
    /// Reads a step list that is not explicit, over this table's statements. Equal entries are found and not appended again.
    ///
    /// Refusals: 16 a malformed list, 18 a short stack or not exactly one item at the end (an empty list too), 15 more entries or
    /// children than a table may have.
    pub fn replay(&self, steps: &[u32]) -> Result<Entries, Refusal> {
        let count = steps.len() / STEP;
        // a step appends at most one entry
        let mut entries = vec![0; ENTRY * count.min(MAX_ENTRIES)];
        let mut children = vec![0; MAX_CHILDREN];
        let (first, second) = ffi::replay(self.parts(), steps, &mut vec![0; 2 * count], &mut entries, &mut children)?;
        entries.truncate(first);
        children.truncate(second);
        children.shrink_to_fit();
        Ok(Entries { entries, children })
    }

    /// The step list that letters with their label list spell; no letters give no steps.
    ///
    /// Refusals: 10, 16 a list item that is no statement, is in the theorem's list, or stands twice, 17 malformed letters.
    pub fn decode(&self, list: &[u32], letters: &[u8]) -> Result<Vec<u32>, Refusal> {
        // a step has at least one letter
        let mut out = vec![0; STEP * letters.len()];
        let written = ffi::decode(self.parts(), list, letters, &mut out)?;
        out.truncate(written);
        Ok(out)
    }

    /// This table's statements and theorem with other entries, the last of them QED: the table that [`Table::replay`] has read.
    pub fn with_entries(&self, read: &Entries) -> Result<Table, Refusal> {
        let start = self.words()[6] as usize;
        let mut words = self.words()[..start].to_vec();
        let entries = read.entries.len() / ENTRY;
        words[2] = entries as u32;
        words[3] = read.children.len() as u32;
        words[7] = (start + read.entries.len()) as u32;
        words[9] = entries.saturating_sub(1) as u32;
        words.extend_from_slice(&read.entries);
        words.extend_from_slice(&read.children);
        Table::new(words, self.labels().to_vec())
    }
}
