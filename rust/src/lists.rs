//! The step lists of a table.
use crate::{ffi, Refusal, Table};

/// Words of a step.
pub(crate) const STEP: usize = 5;
/// Steps that a normal list may have before it is refused 13.
const MAX_NORMAL_STEPS: usize = 1_000_000;
/// Most normal lists are short: a longer slice is lent only where one of so many steps did not do.
const FIRST_NORMAL_STEPS: usize = 1 << 12;

/// One step of a list, its five words by name.
#[derive(Clone, Copy, Debug, PartialEq, Eq, Hash)]
pub struct Step {
    /// The mark that is referred to; 0 for a normal step.
    pub reference: u32,
    /// The mark that the step gets, or 0.
    pub mark: u32,
    /// The statement; 0 for a reference.
    pub statement: u32,
    /// In an explicit list, the parent's statement plus 1; 0 at the root and in every other list.
    pub parent: u32,
    /// In an explicit list, which of the parent's hypotheses the step fills.
    pub hypothesis: u32,
}

/// The steps of a list, five words each. Words past the last whole step give none.
pub fn steps(list: &[u32]) -> impl ExactSizeIterator<Item = Step> + '_ {
    list.chunks_exact(STEP).map(|w| Step { reference: w[0], mark: w[1], statement: w[2], parent: w[3], hypothesis: w[4] })
}

impl Table {
    /// The packed list from QED, five words a step ([`steps`] names them).
    pub fn packed_list(&self, explicit: bool) -> Result<Vec<u32>, Refusal> {
        // every step but the root is listed for one child reference
        let mut out = vec![0; STEP * (self.child_count() + 1)];
        let written = ffi::packed_list(self.parts(), explicit, &mut self.working(), &mut out)?;
        out.truncate(written);
        Ok(out)
    }

    /// The normal list, in which everything is repeated; over 1,000,000 steps it is refused 13.
    pub fn normal_list(&self, explicit: bool) -> Result<Vec<u32>, Refusal> {
        let mut room = FIRST_NORMAL_STEPS;
        loop {
            let mut out = vec![0; STEP * room];
            match ffi::normal_list(self.parts(), explicit, &mut self.working(), &mut out) {
                Err(Refusal::Output) if room < MAX_NORMAL_STEPS => room = (4 * room).min(MAX_NORMAL_STEPS),
                Err(refusal) => return Err(refusal),
                Ok(written) => {
                    out.truncate(written);
                    return Ok(out);
                }
            }
        }
    }
}
