//! The C interface (`include/bulonkeri.h`) over slices: the only module with unsafe code.
//!
//! Why each call is sound. The library asks that a pointer be valid for as many elements as its length says, also where that is 0,
//! that written slices overlap no other, and that the caller's stack be long enough. Each pointer and length below come from one Rust
//! slice or one local variable; `&mut` slices overlap nothing. It keeps no pointer and has no state, and every function is proved to
//! write within the slices on any input. The stack is the caller's to see to (README.md); running out of it ends the program at the
//! guard page, as any recursion in Rust does.
#![allow(unsafe_code)]
use crate::{Layout, Refusal};

/// The two slices that are a table.
#[derive(Clone, Copy)]
pub struct Parts<'a> {
    pub words: &'a [u32],
    pub labels: &'a [u8],
}

/// The working slices of a writer.
pub struct Working<'a> {
    pub words: &'a mut [u32],
    pub sums: &'a mut [u16],
}

mod c {
    extern "C" {
        pub fn bulonkeri_check(words: *const u32, words_length: usize, labels: *const u8, labels_length: usize) -> u32;
        pub fn bulonkeri_parents(
            words: *const u32,
            words_length: usize,
            labels: *const u8,
            labels_length: usize,
            out: *mut u32,
            out_length: usize,
            written: *mut u64,
        ) -> u32;
        pub fn bulonkeri_distances(
            words: *const u32,
            words_length: usize,
            labels: *const u8,
            labels_length: usize,
            out: *mut u16,
            out_length: usize,
            written: *mut u64,
        ) -> u32;
        pub fn bulonkeri_packed_list(
            words: *const u32,
            words_length: usize,
            labels: *const u8,
            labels_length: usize,
            explicit_list: bool,
            work: *mut u32,
            work_length: usize,
            out: *mut u32,
            out_length: usize,
            written: *mut u64,
        ) -> u32;
        pub fn bulonkeri_normal_list(
            words: *const u32,
            words_length: usize,
            labels: *const u8,
            labels_length: usize,
            explicit_list: bool,
            work: *mut u32,
            work_length: usize,
            out: *mut u32,
            out_length: usize,
            written: *mut u64,
        ) -> u32;
        pub fn bulonkeri_replay(
            words: *const u32,
            words_length: usize,
            labels: *const u8,
            labels_length: usize,
            steps: *const u32,
            steps_length: usize,
            work: *mut u32,
            work_length: usize,
            entries: *mut u32,
            entries_length: usize,
            children: *mut u32,
            children_length: usize,
            written_entries: *mut u64,
            written_children: *mut u64,
        ) -> u32;
        pub fn bulonkeri_letters(
            words: *const u32,
            words_length: usize,
            labels: *const u8,
            labels_length: usize,
            width: u32,
            indent: u32,
            first: u32,
            work: *mut u32,
            work_length: usize,
            sums: *mut u16,
            sums_length: usize,
            list: *mut u32,
            list_length: usize,
            letters: *mut u8,
            letters_length: usize,
            written_list: *mut u64,
            written_letters: *mut u64,
        ) -> u32;
        pub fn bulonkeri_text(
            words: *const u32,
            words_length: usize,
            labels: *const u8,
            labels_length: usize,
            style: u32,
            width: u32,
            indent: u32,
            first: u32,
            work: *mut u32,
            work_length: usize,
            sums: *mut u16,
            sums_length: usize,
            out: *mut u8,
            out_length: usize,
            written: *mut u64,
        ) -> u32;
        pub fn bulonkeri_decode(
            words: *const u32,
            words_length: usize,
            labels: *const u8,
            labels_length: usize,
            list: *const u32,
            list_length: usize,
            letters: *const u8,
            letters_length: usize,
            out: *mut u32,
            out_length: usize,
            written: *mut u64,
        ) -> u32;
    }
}

/// 0 is done; the contracts allow no number over 18.
fn done<T>(number: u32, result: T) -> Result<T, Refusal> {
    match number {
        0 => Ok(result),
        _ => Err(Refusal::from_number(number).expect("an answer is 0 to 18")),
    }
}

pub fn check(table: Parts) -> Result<(), Refusal> {
    let Parts { words, labels } = table;
    // SAFETY: pointer and length of each argument are those of one slice.
    let number = unsafe { c::bulonkeri_check(words.as_ptr(), words.len(), labels.as_ptr(), labels.len()) };
    done(number, ())
}

pub fn parents(table: Parts, out: &mut [u32]) -> Result<usize, Refusal> {
    let (Parts { words, labels }, mut written) = (table, 0);
    // SAFETY: as in `check`; `out` and `written` are borrowed for this call alone.
    let number = unsafe {
        c::bulonkeri_parents(words.as_ptr(), words.len(), labels.as_ptr(), labels.len(), out.as_mut_ptr(), out.len(), &mut written)
    };
    done(number, written as usize)
}

pub fn distances(table: Parts, out: &mut [u16]) -> Result<usize, Refusal> {
    let (Parts { words, labels }, mut written) = (table, 0);
    // SAFETY: as in `parents`.
    let number = unsafe {
        c::bulonkeri_distances(words.as_ptr(), words.len(), labels.as_ptr(), labels.len(), out.as_mut_ptr(), out.len(), &mut written)
    };
    done(number, written as usize)
}

pub fn packed_list(table: Parts, explicit: bool, work: &mut [u32], out: &mut [u32]) -> Result<usize, Refusal> {
    let (Parts { words, labels }, mut written) = (table, 0);
    // SAFETY: as in `parents`; two `&mut` slices do not overlap.
    let number = unsafe {
        c::bulonkeri_packed_list(
            words.as_ptr(),
            words.len(),
            labels.as_ptr(),
            labels.len(),
            explicit,
            work.as_mut_ptr(),
            work.len(),
            out.as_mut_ptr(),
            out.len(),
            &mut written,
        )
    };
    done(number, written as usize)
}

pub fn normal_list(table: Parts, explicit: bool, work: &mut [u32], out: &mut [u32]) -> Result<usize, Refusal> {
    let (Parts { words, labels }, mut written) = (table, 0);
    // SAFETY: as in `packed_list`.
    let number = unsafe {
        c::bulonkeri_normal_list(
            words.as_ptr(),
            words.len(),
            labels.as_ptr(),
            labels.len(),
            explicit,
            work.as_mut_ptr(),
            work.len(),
            out.as_mut_ptr(),
            out.len(),
            &mut written,
        )
    };
    done(number, written as usize)
}

/// The lengths written into `entries` and `children`.
pub fn replay(table: Parts, steps: &[u32], work: &mut [u32], entries: &mut [u32], children: &mut [u32]) -> Result<(usize, usize), Refusal> {
    let (Parts { words, labels }, mut written_entries, mut written_children) = (table, 0, 0);
    // SAFETY: as in `packed_list`.
    let number = unsafe {
        c::bulonkeri_replay(
            words.as_ptr(),
            words.len(),
            labels.as_ptr(),
            labels.len(),
            steps.as_ptr(),
            steps.len(),
            work.as_mut_ptr(),
            work.len(),
            entries.as_mut_ptr(),
            entries.len(),
            children.as_mut_ptr(),
            children.len(),
            &mut written_entries,
            &mut written_children,
        )
    };
    done(number, (written_entries as usize, written_children as usize))
}

/// The lengths written into `list` and `letters`.
pub fn letters(table: Parts, layout: Layout, work: Working, list: &mut [u32], letters: &mut [u8]) -> Result<(usize, usize), Refusal> {
    let (Parts { words, labels }, mut written_list, mut written_letters) = (table, 0, 0);
    // SAFETY: as in `packed_list`.
    let number = unsafe {
        c::bulonkeri_letters(
            words.as_ptr(),
            words.len(),
            labels.as_ptr(),
            labels.len(),
            layout.width,
            layout.indent,
            layout.first,
            work.words.as_mut_ptr(),
            work.words.len(),
            work.sums.as_mut_ptr(),
            work.sums.len(),
            list.as_mut_ptr(),
            list.len(),
            letters.as_mut_ptr(),
            letters.len(),
            &mut written_list,
            &mut written_letters,
        )
    };
    done(number, (written_list as usize, written_letters as usize))
}

pub fn text(table: Parts, style: u32, layout: Layout, work: Working, out: &mut [u8]) -> Result<usize, Refusal> {
    let (Parts { words, labels }, mut written) = (table, 0);
    // SAFETY: as in `packed_list`.
    let number = unsafe {
        c::bulonkeri_text(
            words.as_ptr(),
            words.len(),
            labels.as_ptr(),
            labels.len(),
            style,
            layout.width,
            layout.indent,
            layout.first,
            work.words.as_mut_ptr(),
            work.words.len(),
            work.sums.as_mut_ptr(),
            work.sums.len(),
            out.as_mut_ptr(),
            out.len(),
            &mut written,
        )
    };
    done(number, written as usize)
}

pub fn decode(table: Parts, list: &[u32], letters: &[u8], out: &mut [u32]) -> Result<usize, Refusal> {
    let (Parts { words, labels }, mut written) = (table, 0);
    // SAFETY: as in `parents`.
    let number = unsafe {
        c::bulonkeri_decode(
            words.as_ptr(),
            words.len(),
            labels.as_ptr(),
            labels.len(),
            list.as_ptr(),
            list.len(),
            letters.as_ptr(),
            letters.len(),
            out.as_mut_ptr(),
            out.len(),
            &mut written,
        )
    };
    done(number, written as usize)
}
