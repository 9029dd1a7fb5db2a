//! Document 01's refusal numbers as an enum.
use std::fmt;

/// Why the library gave no result. The number of each variant is document 01's, its text document 01's meaning.
///
/// [`Table::new`](crate::Table::new) gives 1 to 7, so nothing that is asked of a [`Table`](crate::Table) gives them. 9 and 14 are for
/// callers of the C interface: this crate names no other style and lends all the working memory that is asked for.
#[derive(Clone, Copy, Debug, PartialEq, Eq, Hash)]
#[repr(u32)]
#[allow(missing_docs)] // `meaning` documents each
pub enum Refusal {
    Header = 1,
    Statement = 2,
    Label = 3,
    Hypothesis = 4,
    Entry = 5,
    Child = 6,
    TheoremOrQed = 7,
    Layout = 8,
    Style = 9,
    FloatingAfterEssential = 10,
    StrayEssential = 11,
    WideLabel = 12,
    TooManySteps = 13,
    WorkingSlice = 14,
    Output = 15,
    List = 16,
    Letters = 17,
    Stack = 18,
}

impl Refusal {
    /// Every refusal, in the order of the numbers.
    pub const ALL: [Refusal; 18] = [
        Refusal::Header,
        Refusal::Statement,
        Refusal::Label,
        Refusal::Hypothesis,
        Refusal::Entry,
        Refusal::Child,
        Refusal::TheoremOrQed,
        Refusal::Layout,
        Refusal::Style,
        Refusal::FloatingAfterEssential,
        Refusal::StrayEssential,
        Refusal::WideLabel,
        Refusal::TooManySteps,
        Refusal::WorkingSlice,
        Refusal::Output,
        Refusal::List,
        Refusal::Letters,
        Refusal::Stack,
    ];

    /// Document 01's number, 1 to 18.
    pub fn number(self) -> u32 {
        self as u32
    }

    /// The refusal with this number; none for 0 (done) and for numbers over 18.
    pub fn from_number(number: u32) -> Option<Refusal> {
        Refusal::ALL.into_iter().find(|refusal| refusal.number() == number)
    }

    fn meaning(self) -> &'static str {
        match self {
            Refusal::Header => "fewer than 10 words, a count over its limit, a wrong offset or length",
            Refusal::Statement => "a statement record breaks its line, or labels or hypotheses are not filled exactly",
            Refusal::Label => "a label byte other than letter, digit, `.`, `-`, `_`; or two equal labels",
            Refusal::Hypothesis => "a hypothesis reference out of range, of kind 0, or repeated in its list",
            Refusal::Entry => "an entry record breaks its line, or the children are not filled exactly",
            Refusal::Child => "a child not below its parent",
            Refusal::TheoremOrQed => "theorem not a statement of kind 0, or QED not below the number of entries",
            Refusal::Layout => "layout outside its bounds",
            Refusal::Style => "style not 0 to 4",
            Refusal::FloatingAfterEssential => "compressed: theorem's list has a floating after an essential",
            Refusal::StrayEssential => "compressed: a reachable essential not in the theorem's list",
            Refusal::WideLabel => "compressed: a label to be listed longer than line width minus indent",
            Refusal::TooManySteps => "normal styles: more than 1,000,000 steps",
            Refusal::WorkingSlice => "working slice too short",
            Refusal::Output => "output does not fit",
            Refusal::List => "malformed step list or label list",
            Refusal::Letters => "malformed letters",
            Refusal::Stack => "stack short, or not exactly one item at the end",
        }
    }
}

impl fmt::Display for Refusal {
    fn fmt(&self, f: &mut fmt::Formatter<'_>) -> fmt::Result {
        f.write_str(self.meaning())
    }
}

impl std::error::Error for Refusal {}
