//! The calls of the C library `libgirzohal`, as its header `girzohal.h` declares them. The crate `girzohal` has safe calls
//! over these.
//!
//! All texts are in one buffer of bytes that is UTF-8 as a whole. Files, reports and labels are arrays of structs that
//! give texts by their ranges.
#![no_std]
#![warn(missing_docs)]

#[cfg(not(target_pointer_width = "64"))]
compile_error!("girzohal has libraries for 64-bit processors only");

/// The number of the ABI that this crate declares, the first argument of each call.
pub const ABI: u32 = 1;

/// Status: the text is in the buffer.
pub const DONE: u32 = 0;
/// Status: a report has an error; `cause`, `report` and `label` of the answer say which and why.
pub const REFUSED: u32 = 1;
/// Status: an argument is wrong; `array` and `index` of the answer name the first that is.
pub const WRONG_ARGUMENT: u32 = 2;
/// Status: the bytes are no document.
pub const NO_DOCUMENT: u32 = 3;
/// Status: out of memory.
pub const OUT_OF_MEMORY: u32 = 6;
/// Status: the buffer is too small; `needed` of the answer says how many bytes are needed.
pub const BUFFER_TOO_SMALL: u32 = 10;

/// A text: a range of the buffer of texts, in bytes from 0.
#[repr(C)]
#[derive(Clone, Copy, Debug, PartialEq, Eq)]
pub struct Text {
    /// Its first byte.
    pub start: usize,
    /// The byte past its last.
    pub end: usize,
}

impl Text {
    /// No text, for texts that may be missing.
    pub const NONE: Text = Text {
        start: usize::MAX,
        end: usize::MAX,
    };
}

/// A file that reports are on.
#[repr(C)]
#[derive(Clone, Copy, Debug)]
pub struct File {
    /// Its name, as it is shown.
    pub name: Text,
    /// What it holds: fewer than `u32::MAX` bytes.
    pub source: Text,
}

/// A part of a file's source, and a text on it.
#[repr(C)]
#[derive(Clone, Copy, Debug)]
pub struct Label {
    /// Its first byte, from 0 in its file's source.
    pub start: u32,
    /// The byte past its last.
    pub end: u32,
    /// What it says, or no text.
    pub text: Text,
    /// Whether it is primary: any number but 0.
    pub primary: u32,
}

/// A report on one file.
#[repr(C)]
#[derive(Clone, Copy, Debug)]
pub struct Report {
    /// The file's index, from 0.
    pub file: u32,
    /// 0: advice; 1: a warning; 2: an error.
    pub severity: u32,
    /// What is reported.
    pub message: Text,
    /// The first part of its code, or no text; never empty.
    pub scope: Text,
    /// The second part of its code, or no text; never empty.
    pub number: Text,
    /// How to fix it, or no text.
    pub help: Text,
    /// More to know, or no text.
    pub note: Text,
    /// Where to read more, or no text.
    pub url: Text,
    /// Its first label's index in the array of labels, from 0.
    pub first_label: usize,
    /// How many labels it has.
    pub labels: usize,
}

/// How the text looks.
#[repr(C)]
#[derive(Clone, Copy, Debug)]
pub struct Look {
    /// 0: colors and lines; 1: lines without colors; 2: ASCII only, except for the texts themselves.
    pub theme: u32,
    /// The columns between tab stops, from 1 to 16.
    pub tabs: u32,
    /// 0: each report is drawn; 1: each is a line of JSON.
    pub form: u32,
    /// The columns that long texts are filled to.
    pub width: usize,
}

/// What a call gives besides its status. Fields that don't belong to the status are 0.
#[repr(C)]
#[derive(Clone, Copy, Debug, Default)]
pub struct Answer {
    /// With 0 and 10: how many bytes the text has.
    pub needed: usize,
    /// With 2: which argument is wrong: 0 the texts, 1 the files, 2 the reports, 3 the labels, 4 the look, 5 the number of
    /// the ABI.
    pub array: usize,
    /// With 2: which of its elements, from 0; of the look the field.
    pub index: usize,
    /// With 1: which report is refused, from 0.
    pub report: usize,
    /// With 1: which of its labels, from 0.
    pub label: usize,
    /// With 1: 1 an unknown file, 2 a start or 3 an end that is no place, 4 an end before its start.
    pub cause: u32,
    /// With the cause 4: where the label starts, in bytes.
    pub first: u64,
    /// With the cause 4: where it ends.
    pub second: u64,
}

extern "C" {
    /// Writes the reports of the arrays into `out`, and returns the status.
    ///
    /// # Safety
    ///
    /// Every pointer is valid for as many elements as the length after it says, aligned, and not null even if the length
    /// is 0. What `out` and `answer` point to is borrowed by nobody else during the call. No pointer is kept, and threads
    /// may call at the same time. All other numbers are tested.
    pub fn girzohal_draw(
        abi: u32,
        texts: *const u8,
        texts_len: usize,
        files: *const File,
        files_len: usize,
        reports: *const Report,
        reports_len: usize,
        labels: *const Label,
        labels_len: usize,
        look: *const Look,
        out: *mut u8,
        out_len: usize,
        answer: *mut Answer,
    ) -> u32;

    /// Writes the reports of a document, JSON of files and reports, into `out`, and returns the status.
    ///
    /// # Safety
    ///
    /// As for [`girzohal_draw`].
    pub fn girzohal_document(
        abi: u32,
        document: *const u8,
        document_len: usize,
        look: *const Look,
        out: *mut u8,
        out_len: usize,
        answer: *mut Answer,
    ) -> u32;

    /// The version of the library: major, minor and patch, a byte each; 0x000100 is 0.1.0.
    ///
    /// # Safety
    ///
    /// There is no condition.
    pub fn girzohal_version() -> u32;
}
