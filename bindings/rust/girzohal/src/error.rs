use crate::Report;
use girzohal_sys::Answer;
use std::{error, fmt, io};

/// Why nothing was drawn. Files, reports and labels are named by their indices, from 0.
#[derive(Clone, Copy, Debug, PartialEq, Eq)]
#[non_exhaustive]
pub enum DrawError {
    /// A file's source has 4,294,967,295 bytes or more.
    WrongFile {
        /// The file, or `usize::MAX` if there are too many.
        file: usize,
    },
    /// A report is on a file that isn't there, or the scope or the number of its code is empty.
    WrongReport {
        /// The report.
        report: usize,
    },
    /// The look's tab stops aren't 1 to 16 columns apart.
    WrongLook,
    /// The library that was linked has another ABI than this crate.
    WrongAbi,
    /// The bytes are no document.
    NoDocument,
    /// A report of a document is on a file that isn't there.
    UnknownFile {
        /// The report.
        report: usize,
    },
    /// A label's start, or its end, is outside its file's source, inside a character, or at a row or column that isn't
    /// there.
    NoPlace {
        /// The report.
        report: usize,
        /// The label, among those of its report.
        label: usize,
        /// Whether it is the label's end, and not its start.
        at_end: bool,
    },
    /// A label ends before it starts.
    EndBeforeStart {
        /// The report.
        report: usize,
        /// The label, among those of its report.
        label: usize,
        /// Where it starts, in the unit of the sources; of a document in bytes.
        start: u64,
        /// Where it ends.
        end: u64,
    },
    /// There was no memory.
    OutOfMemory,
}

impl DrawError {
    /// What a status other than 0 and 10 means.
    pub(crate) fn of(status: u32, answer: &Answer) -> DrawError {
        let (report, label) = (answer.report, answer.label);
        match (status, answer.array, answer.cause) {
            (2, 1, _) => DrawError::WrongFile { file: answer.index },
            (2, 2, _) => DrawError::WrongReport {
                report: answer.index,
            },
            (2, 4, _) => DrawError::WrongLook,
            (2, _, _) => DrawError::WrongAbi,
            (3, _, _) => DrawError::NoDocument,
            (1, _, 1) => DrawError::UnknownFile { report },
            (1, _, 4) => DrawError::EndBeforeStart {
                report,
                label,
                start: answer.first,
                end: answer.second,
            },
            (1, _, cause) => DrawError::NoPlace {
                report,
                label,
                at_end: cause == 3,
            },
            _ => DrawError::OutOfMemory,
        }
    }

    /// The error with the ends of a label as its report has them.
    pub(crate) fn in_units_of(self, reports: &[Report]) -> DrawError {
        let DrawError::EndBeforeStart { report, label, .. } = self else {
            return self;
        };
        let range = &reports[report].labels[label].range;
        DrawError::EndBeforeStart {
            report,
            label,
            start: range.start as u64,
            end: range.end as u64,
        }
    }
}

impl fmt::Display for DrawError {
    fn fmt(&self, f: &mut fmt::Formatter<'_>) -> fmt::Result {
        match *self {
            DrawError::WrongFile { file: usize::MAX } => write!(f, "there are too many files"),
            DrawError::WrongFile { file } => write!(f, "file {file}: its source is too long"),
            DrawError::WrongReport { report } => write!(
                f,
                "report {report}: there is no such file, or a part of its code is empty"
            ),
            DrawError::WrongLook => write!(f, "tab stops aren't 1 to 16 columns apart"),
            DrawError::WrongAbi => write!(f, "the library has another ABI"),
            DrawError::NoDocument => write!(f, "not a document"),
            DrawError::UnknownFile { report } => {
                write!(f, "report {report}: there is no such file")
            }
            DrawError::NoPlace {
                report,
                label,
                at_end,
            } => {
                let end = if at_end { "end" } else { "start" };
                write!(
                    f,
                    "report {report}: label {label}: its {end} is no place in the source"
                )
            }
            DrawError::EndBeforeStart {
                report,
                label,
                start,
                end,
            } => write!(
                f,
                "report {report}: label {label}: its end {end} is before its start {start}"
            ),
            DrawError::OutOfMemory => write!(f, "out of memory"),
        }
    }
}

impl error::Error for DrawError {}

impl From<DrawError> for io::Error {
    fn from(why: DrawError) -> io::Error {
        let kind = match why {
            DrawError::OutOfMemory => io::ErrorKind::OutOfMemory,
            _ => io::ErrorKind::InvalidInput,
        };
        io::Error::new(kind, why)
    }
}
