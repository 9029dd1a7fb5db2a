#![doc = include_str!("../README.md")]

mod counts;
mod ffi;
mod layout;
mod lists;
mod printing;
mod reading;
mod refusal;
mod table;

pub use layout::{Layout, Style};
pub use lists::{steps, Step};
pub use printing::LabelLetters;
pub use reading::Entries;
pub use refusal::Refusal;
pub use table::{ReadError, Table};
