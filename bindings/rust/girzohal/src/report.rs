use std::ops::Range;

/// How severe a report is.
#[derive(Clone, Copy, Debug, PartialEq, Eq)]
#[non_exhaustive]
pub enum Severity {
    /// A hint.
    Advice,
    /// Something that may be wrong.
    Warning,
    /// Something that is wrong.
    Error,
}

/// A part of a file's source, and a text on it.
#[derive(Clone, Debug, PartialEq, Eq)]
pub struct Label {
    /// The part, from 0 in the unit of the sources.
    pub range: Range<usize>,
    /// The text, or none.
    pub text: Option<String>,
    /// Whether it is the primary label, whose position is in the head of the drawing.
    pub primary: bool,
}

impl Label {
    /// A label of a part of the source, in the unit of the sources, without a text.
    pub fn new(range: Range<usize>) -> Label {
        Label {
            range,
            text: None,
            primary: false,
        }
    }

    /// The label with a text.
    pub fn text(mut self, text: impl Into<String>) -> Label {
        self.text = Some(text.into());
        self
    }

    /// The label as the primary one.
    pub fn primary(mut self) -> Label {
        self.primary = true;
        self
    }
}

/// A report on one file: the first that was added, unless [`Report::file`] names another.
///
/// ```
/// use girzohal::Report;
///
/// let report = Report::warning("`x` is never used")
///     .code("rustc", "unused")
///     .label(4..5, "here")
///     .help("write `_x`");
/// assert_eq!(report.labels.len(), 1);
/// ```
#[derive(Clone, Debug, PartialEq, Eq)]
pub struct Report {
    /// The file's index, which [`Sources::add`](crate::Sources::add) returned.
    pub file: u32,
    /// How severe it is.
    pub severity: Severity,
    /// What is reported.
    pub message: String,
    /// The first part of its code, like `eslint`; never empty.
    pub scope: Option<String>,
    /// The second part of its code, like `no-undef`; never empty.
    pub number: Option<String>,
    /// How to fix it.
    pub help: Option<String>,
    /// More to know.
    pub note: Option<String>,
    /// Where to read more.
    pub url: Option<String>,
    /// The parts of the source that it is about, in the order in which they are given.
    pub labels: Vec<Label>,
}

impl Report {
    /// A report of a severity.
    pub fn new(severity: Severity, message: impl Into<String>) -> Report {
        Report {
            file: 0,
            severity,
            message: message.into(),
            scope: None,
            number: None,
            help: None,
            note: None,
            url: None,
            labels: Vec::new(),
        }
    }

    /// An error.
    pub fn error(message: impl Into<String>) -> Report {
        Report::new(Severity::Error, message)
    }

    /// A warning.
    pub fn warning(message: impl Into<String>) -> Report {
        Report::new(Severity::Warning, message)
    }

    /// Advice.
    pub fn advice(message: impl Into<String>) -> Report {
        Report::new(Severity::Advice, message)
    }

    /// The report on a file, by the index that [`Sources::add`](crate::Sources::add) returned.
    pub fn file(mut self, file: u32) -> Report {
        self.file = file;
        self
    }

    /// The report with both parts of a code, like `eslint` and `no-undef`. Neither may be empty.
    pub fn code(self, scope: impl Into<String>, number: impl Into<String>) -> Report {
        self.scope(scope).number(number)
    }

    /// The report with the first part of a code.
    pub fn scope(mut self, scope: impl Into<String>) -> Report {
        self.scope = Some(scope.into());
        self
    }

    /// The report with the second part of a code.
    pub fn number(mut self, number: impl Into<String>) -> Report {
        self.number = Some(number.into());
        self
    }

    /// The report with a help: how to fix it.
    pub fn help(mut self, help: impl Into<String>) -> Report {
        self.help = Some(help.into());
        self
    }

    /// The report with a note: more to know.
    pub fn note(mut self, note: impl Into<String>) -> Report {
        self.note = Some(note.into());
        self
    }

    /// The report with a URL: where to read more.
    pub fn url(mut self, url: impl Into<String>) -> Report {
        self.url = Some(url.into());
        self
    }

    /// The report with one more label: a part of the source, in the unit of the sources, and a text on it.
    pub fn label(self, range: Range<usize>, text: impl Into<String>) -> Report {
        self.with_label(Label::new(range).text(text))
    }

    /// The report with one more label, the primary one.
    pub fn primary(self, range: Range<usize>, text: impl Into<String>) -> Report {
        self.with_label(Label::new(range).text(text).primary())
    }

    /// The report with one more label.
    pub fn with_label(mut self, label: Label) -> Report {
        self.labels.push(label);
        self
    }
}
