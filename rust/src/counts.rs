//! Numbers for each entry.
use crate::{ffi, Refusal, Table};

impl Table {
    /// How many child references name each entry, over all entries.
    pub fn parents(&self) -> Result<Vec<u32>, Refusal> {
        let mut out = vec![0; self.entry_count()];
        let written = ffi::parents(self.parts(), &mut out)?;
        out.truncate(written);
        Ok(out)
    }

    /// The fewest child edges from QED to each entry, 65535 where there is no way.
    pub fn distances(&self) -> Result<Vec<u16>, Refusal> {
        let mut out = vec![0; self.entry_count()];
        let written = ffi::distances(self.parts(), &mut out)?;
        out.truncate(written);
        Ok(out)
    }
}
