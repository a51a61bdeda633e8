//! Draws twice what a file holds, for counting instructions: `bindings/speed.py` writes the file, and reads the counts.
//!
//! usage: speed FILE DRAWING

use girzohal::{draw, Label, Look, Report, Severity, Sources, Theme};

/// What is left of a file of numbers and texts.
struct Reader<'a>(&'a [u8]);

impl<'a> Reader<'a> {
    fn take(&mut self, bytes: usize) -> &'a [u8] {
        let (first, rest) = self.0.split_at(bytes);
        self.0 = rest;
        first
    }

    fn u32(&mut self) -> u32 {
        u32::from_le_bytes(self.take(4).try_into().unwrap())
    }

    fn usize(&mut self) -> usize {
        usize::from_le_bytes(self.take(8).try_into().unwrap())
    }

    fn text<'t>(&mut self, texts: &'t str) -> Option<&'t str> {
        let (start, end) = (self.usize(), self.usize());
        (start != usize::MAX).then(|| &texts[start..end])
    }
}

fn read(bytes: &[u8]) -> (Sources, Vec<Report>) {
    let mut from = Reader(bytes);
    let lens = [from.usize(), from.usize(), from.usize(), from.usize()];
    let texts = std::str::from_utf8(from.take(lens[0])).unwrap();
    let mut sources = Sources::new();
    for _ in 0..lens[1] {
        let (name, source) = (from.text(texts), from.text(texts));
        sources.add(name.unwrap(), source.unwrap());
    }
    let mut labels = Reader(&from.0[lens[2] * 120..]);
    let labels: Vec<Label> = (0..lens[3]).map(|_| label(&mut labels, texts)).collect();
    let reports = (0..lens[2]).map(|_| report(&mut from, texts, &labels));
    (sources, reports.collect())
}

fn label(from: &mut Reader<'_>, texts: &str) -> Label {
    let made = Label::new(from.u32() as usize..from.u32() as usize);
    let text = from.text(texts).map(str::to_string);
    let primary = from.u32() != 0;
    from.take(4);
    Label {
        text,
        primary,
        ..made
    }
}

fn report(from: &mut Reader<'_>, texts: &str, labels: &[Label]) -> Report {
    let file = from.u32();
    let severity = [Severity::Advice, Severity::Warning, Severity::Error][from.u32() as usize];
    let message = from.text(texts).unwrap();
    let mut part = || from.text(texts).map(str::to_string);
    let (scope, number, help, note, url) = (part(), part(), part(), part(), part());
    let first = from.usize();
    let count = from.usize();
    Report {
        scope,
        number,
        help,
        note,
        url,
        labels: labels[first..first + count].to_vec(),
        ..Report::new(severity, message).file(file)
    }
}

#[inline(never)]
fn counted(sources: &Sources, reports: &[Report], look: &Look) -> String {
    draw(sources, reports, look).unwrap()
}

/// The same once more. It returns something else, so that the compiler doesn't make one function of both.
#[inline(never)]
fn again(sources: &Sources, reports: &[Report], look: &Look) -> usize {
    draw(sources, reports, look).unwrap().len()
}

fn main() {
    let words: Vec<String> = std::env::args().collect();
    let (sources, reports) = read(&std::fs::read(&words[1]).unwrap());
    let look = Look {
        theme: Theme::None,
        ..Look::default()
    };
    let text = counted(&sources, &reports, &look);
    assert_eq!(again(&sources, &reports, &look), text.len());
    std::fs::write(&words[2], text).unwrap();
}
