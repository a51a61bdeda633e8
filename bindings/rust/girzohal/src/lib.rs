//! Draws diagnostics together with the source code.
//!
//! ```
//! use girzohal::{draw, Look, Report, Sources};
//!
//! let mut sources = Sources::new();
//! let cart = sources.add("cart.js", "let total = 1;\nprint(totl);\n");
//! let report = Report::error("`totl` isn't defined.")
//!     .file(cart)
//!     .code("eslint", "no-undef")
//!     .primary(21..25, "not found")
//!     .help("Did you mean `total`?");
//! let text = draw(&sources, &[report], &Look::default())?;
//! assert_eq!(text, "
//!   × eslint(no-undef): `totl` isn't defined.
//!    ╭─[cart.js:2:7]
//!  1 │ let total = 1;
//!  2 │ print(totl);
//!    ·       ──┬─
//!    ·         ╰── not found
//!    ╰────
//!   help: Did you mean `total`?
//! ");
//! # Ok::<(), girzohal::DrawError>(())
//! ```
//!
//! The C library that draws is proved: it draws exactly what its definitions say, and every wrong number has its stated
//! error. This crate, which lays reports out as plain arrays, is tested; its one module with `unsafe` is `call`.
//!
//! Feature `dynamic`: links the shared library `libgirzohal.so` instead of the archive.
#![deny(unsafe_code)]
#![warn(missing_docs)]

mod arrays;
#[allow(unsafe_code)]
#[deny(unsafe_op_in_unsafe_fn)]
mod call;
mod error;
mod report;
mod sources;

pub use error::DrawError;
pub use report::{Label, Report, Severity};
pub use sources::{Sources, Unit};

use arrays::Laid;
use girzohal_sys::Answer;
use std::io;

/// The characters and colors of a drawing.
#[derive(Clone, Copy, Debug, Default, PartialEq, Eq)]
#[non_exhaustive]
pub enum Theme {
    /// Colors, and characters that draw lines.
    Unicode,
    /// Characters that draw lines, no colors.
    #[default]
    UnicodeNoColor,
    /// ASCII only, except for the texts themselves.
    None,
}

/// How a drawing looks.
#[derive(Clone, Copy, Debug, PartialEq, Eq)]
pub struct Look {
    /// The characters and colors.
    pub theme: Theme,
    /// The columns between tab stops, from 1 to 16.
    pub tabs: u32,
    /// The columns that messages, helps and notes are filled to; `usize::MAX` breaks no line.
    pub width: usize,
}

impl Default for Look {
    /// No colors, tab stops 4 columns apart, 80 columns.
    fn default() -> Look {
        Look {
            theme: Theme::default(),
            tabs: 4,
            width: 80,
        }
    }
}

impl Look {
    fn numbers(&self) -> girzohal_sys::Look {
        girzohal_sys::Look {
            theme: match self.theme {
                Theme::Unicode => 0,
                Theme::UnicodeNoColor => 1,
                Theme::None => 2,
            },
            tabs: self.tabs,
            form: 0,
            width: self.width,
        }
    }
}

/// The look for JSON: only the form matters.
const JSON: girzohal_sys::Look = girzohal_sys::Look {
    theme: 0,
    tabs: 4,
    form: 1,
    width: 80,
};

/// The drawings of reports, one after another.
///
/// # Errors
///
/// Nothing is drawn if a file, a report or the look is wrong, or if a label's start or end is no place in its file's
/// source. The error names the first.
///
/// ```
/// use girzohal::{draw, DrawError, Look, Report, Sources};
///
/// let mut sources = Sources::new();
/// sources.add("a.txt", "é");
/// let report = Report::error("oops").label(1..2, "inside a character");
/// let error = DrawError::NoPlace { report: 0, label: 0, at_end: false };
/// assert_eq!(draw(&sources, &[report], &Look::default()), Err(error));
/// ```
pub fn draw(sources: &Sources, reports: &[Report], look: &Look) -> Result<String, DrawError> {
    write(sources, reports, &look.numbers())
}

/// Writes the drawings of reports to a sink, one after another.
///
/// # Errors
///
/// Those of [`draw`], as an [`io::Error`] that holds the [`DrawError`]; then nothing was written. Those of the sink.
///
/// ```
/// use girzohal::{draw_to, Look, Report, Sources};
///
/// let mut sources = Sources::new();
/// sources.add("a.txt", "x");
/// let mut sink = Vec::new();
/// draw_to(&mut sink, &sources, &[Report::warning("oops").label(0..1, "here")], &Look::default())?;
/// assert!(!sink.is_empty());
/// # Ok::<(), std::io::Error>(())
/// ```
pub fn draw_to<W: io::Write + ?Sized>(
    sink: &mut W,
    sources: &Sources,
    reports: &[Report],
    look: &Look,
) -> io::Result<()> {
    sink.write_all(draw(sources, reports, look)?.as_bytes())
}

/// A line of JSON for each report. Spans in it are in bytes, in every unit.
///
/// # Errors
///
/// Those of [`draw`].
///
/// ```
/// use girzohal::{json, Report, Sources};
///
/// let mut sources = Sources::new();
/// sources.add("a.js", "foo\nbar\nbaz");
/// let line = json(&sources, &[Report::error("Oops").label(4..7, "here")])?;
/// assert!(line.starts_with(r#"{"message": "Oops","severity": "error","filename": "a.js""#));
/// assert!(line.ends_with("}\n"));
/// # Ok::<(), girzohal::DrawError>(())
/// ```
pub fn json(sources: &Sources, reports: &[Report]) -> Result<String, DrawError> {
    write(sources, reports, &JSON)
}

/// The drawings of the reports of a document, one after another: JSON in UTF-8 with files and reports on them.
///
/// Its keys are in `docs/DOCUMENT.md` of the repository. Its labels may have rows and columns.
///
/// # Errors
///
/// Nothing is drawn if the look is wrong, the bytes are no document, or one of its reports is on a file that isn't there
/// or has a label whose start or end is no place. The error names the first.
///
/// ```
/// use girzohal::{draw_document, DrawError, Look};
///
/// let document = r#"{
///     "files": [{ "name": "cart.js", "source": "let total = 1;\nprint(totl);\n" }],
///     "reports": [{
///         "file": 0, "message": "`totl` isn't defined.", "scope": "eslint", "number": "no-undef",
///         "labels": [{ "start": [2, 7], "end": [2, 11], "text": "not found", "primary": true }],
///         "help": "Did you mean `total`?"
///     }]
/// }"#;
/// assert!(draw_document(document, &Look::default())?.contains("──┬─"));
/// assert_eq!(draw_document("{}", &Look::default()), Err(DrawError::NoDocument));
/// # Ok::<(), DrawError>(())
/// ```
pub fn draw_document(document: impl AsRef<[u8]>, look: &Look) -> Result<String, DrawError> {
    write_document(document.as_ref(), &look.numbers())
}

/// A line of JSON for each report of a document as in [`draw_document`].
///
/// # Errors
///
/// Those of [`draw_document`].
///
/// ```
/// let document = r#"{ "files": [], "reports": [] }"#;
/// assert_eq!(girzohal::json_document(document).as_deref(), Ok(""));
/// ```
pub fn json_document(document: impl AsRef<[u8]>) -> Result<String, DrawError> {
    write_document(document.as_ref(), &JSON)
}

/// The version of the library: major, minor and patch.
///
/// ```
/// assert_eq!(girzohal::version(), (0, 1, 0));
/// ```
pub fn version() -> (u8, u8, u8) {
    let [_, major, minor, patch] = call::version().to_be_bytes();
    (major, minor, patch)
}

fn write(
    sources: &Sources,
    reports: &[Report],
    look: &girzohal_sys::Look,
) -> Result<String, DrawError> {
    let laid = Laid::new(sources, reports);
    let arrays = laid.arrays();
    fill(laid.room(), |out, answer| {
        call::draw(&arrays, look, out, answer)
    })
    .map_err(|why| why.in_units_of(reports))
}

fn write_document(document: &[u8], look: &girzohal_sys::Look) -> Result<String, DrawError> {
    fill(2 * document.len() + 4096, |out, answer| {
        call::draw_document(document, look, out, answer)
    })
}

/// The text that a call writes: into this room, and again if that was too small.
fn fill(
    room: usize,
    mut call: impl FnMut(&mut Vec<u8>, &mut Answer) -> u32,
) -> Result<String, DrawError> {
    let mut out = with_room(room)?;
    let mut answer = Answer::default();
    let mut status = call(&mut out, &mut answer);
    if status == girzohal_sys::BUFFER_TOO_SMALL {
        out = with_room(answer.needed)?;
        status = call(&mut out, &mut answer);
    }
    if status != girzohal_sys::DONE {
        return Err(DrawError::of(status, &answer));
    }
    out.shrink_to_fit();
    Ok(call::text(out))
}

/// No bytes yet, and room for so many.
fn with_room(bytes: usize) -> Result<Vec<u8>, DrawError> {
    let mut room = Vec::new();
    match room.try_reserve_exact(bytes) {
        Ok(()) => Ok(room),
        Err(_) => Err(DrawError::OutOfMemory),
    }
}
