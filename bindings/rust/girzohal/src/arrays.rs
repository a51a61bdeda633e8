//! Reports as plain arrays.

use crate::call::Arrays;
use crate::sources::put;
use crate::{report, Severity, Sources};
use girzohal_sys::{Label, Report};

/// The arrays of reports and labels, and one buffer of all texts, which begins with those of the files.
pub(crate) struct Laid<'a> {
    sources: &'a Sources,
    texts: String,
    reports: Vec<Report>,
    labels: Vec<Label>,
}

impl<'a> Laid<'a> {
    pub(crate) fn new(sources: &'a Sources, reports: &[report::Report]) -> Laid<'a> {
        let texts = sources.take_room(reports.iter().map(bytes_of).sum());
        let count = reports.iter().map(|report| report.labels.len()).sum();
        let mut made = Laid {
            sources,
            texts,
            reports: Vec::with_capacity(reports.len()),
            labels: Vec::with_capacity(count),
        };
        for report in reports {
            made.push(report);
        }
        made
    }

    fn push(&mut self, report: &report::Report) {
        let first_label = self.labels.len();
        for label in &report.labels {
            let text = put(&mut self.texts, label.text.as_deref());
            self.labels.push(Label {
                start: self.sources.byte_of(report.file, label.range.start),
                end: self.sources.byte_of(report.file, label.range.end),
                text,
                primary: label.primary.into(),
            });
        }
        let texts = &mut self.texts;
        self.reports.push(Report {
            file: report.file,
            severity: match report.severity {
                Severity::Advice => 0,
                Severity::Warning => 1,
                Severity::Error => 2,
            },
            message: put(texts, Some(&report.message)),
            scope: put(texts, report.scope.as_deref()),
            number: put(texts, report.number.as_deref()),
            help: put(texts, report.help.as_deref()),
            note: put(texts, report.note.as_deref()),
            url: put(texts, report.url.as_deref()),
            first_label,
            labels: report.labels.len(),
        });
    }

    pub(crate) fn arrays(&self) -> Arrays<'_> {
        Arrays {
            texts: &self.texts,
            files: self.sources.files(),
            reports: &self.reports,
            labels: &self.labels,
        }
    }

    /// The size of the first buffer. It costs nothing where nothing is written. Each label of a row may have lines as long
    /// as the row, so a wide row with many labels takes more than the texts.
    pub(crate) fn room(&self) -> usize {
        const MOST_FOR_LABELS: usize = 16 << 20;
        let labels = self.reports.iter().map(|report| report.labels).max();
        let rows = self.texts.len().saturating_mul(2 * labels.unwrap_or(0));
        4 * self.texts.len() + rows.min(MOST_FOR_LABELS) + 256 * self.reports.len() + 4096
    }
}

impl Drop for Laid<'_> {
    fn drop(&mut self) {
        self.sources.keep_room(std::mem::take(&mut self.texts));
    }
}

fn bytes_of(report: &report::Report) -> usize {
    let parts = [
        &report.scope,
        &report.number,
        &report.help,
        &report.note,
        &report.url,
    ];
    let labels = report.labels.iter().map(|label| &label.text);
    let texts = parts.into_iter().chain(labels).flatten().map(String::len);
    report.message.len() + texts.sum::<usize>()
}
