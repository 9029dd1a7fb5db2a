//! The compressed form's parts, and the texts.
use crate::ffi::{self, Working};
use crate::{Layout, Refusal, Style, Table};

/// No step needs more letters, its `Z` with them.
const LETTERS_A_STEP: usize = 14;
/// A guess at a text's length, for each child reference: a text that needs more is asked for again with twice the room.
const GUESS_A_STEP: usize = 16;

/// The compressed form: which statements `( .. )` lists, and the letters after it.
#[derive(Clone, Debug, PartialEq, Eq, Hash)]
pub struct LabelLetters {
    /// Statement numbers in the order of the listed labels.
    pub list: Vec<u32>,
    /// The letters `A` to `Z`.
    pub letters: String,
}

impl Table {
    /// The label list and the letters. The layout decides the order of the labels.
    pub fn letters(&self, layout: Layout) -> Result<LabelLetters, Refusal> {
        let (mut words, mut sums) = (self.working(), self.sums(layout));
        let mut list = vec![0; self.statement_count()];
        let mut letters = vec![0; LETTERS_A_STEP * (self.child_count() + 1)];
        let work = Working { words: &mut words, sums: &mut sums };
        let (listed, written) = ffi::letters(self.parts(), layout, work, &mut list, &mut letters)?;
        list.truncate(listed);
        letters.truncate(written);
        Ok(LabelLetters { list, letters: ascii(letters) })
    }

    /// The text of the proof, from the spaces of the first line to the last word `$.`.
    pub fn text(&self, style: Style, layout: Layout) -> Result<String, Refusal> {
        let mut words = self.working();
        let mut sums = if style == Style::Compressed { self.sums(layout) } else { Vec::new() };
        let mut room = self.labels().len() + GUESS_A_STEP * (self.child_count() + 1);
        loop {
            let mut out = vec![0; room];
            let work = Working { words: &mut words, sums: &mut sums };
            match ffi::text(self.parts(), style.number(), layout, work, &mut out) {
                Err(Refusal::Output) => room *= 2,
                Err(refusal) => return Err(refusal),
                Ok(written) => {
                    out.truncate(written);
                    return Ok(ascii(out));
                }
            }
        }
    }

    /// What the label order asks for: (s + 1) × (W + 1) numbers, whatever they hold.
    fn sums(&self, layout: Layout) -> Vec<u16> {
        vec![0; (self.statement_count() + 1) * layout.sums_each()]
    }
}

fn ascii(bytes: Vec<u8>) -> String {
    String::from_utf8(bytes).expect("labels, names and letters are ASCII")
}
