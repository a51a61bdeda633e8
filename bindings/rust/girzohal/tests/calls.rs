//! The crate's calls on the examples of the repository, and on what it could get wrong.

#[rustfmt::skip]
mod examples;

use examples::examples;
use girzohal::{draw, draw_document, draw_to, json, json_document, version};
use girzohal::{DrawError, Label, Look, Report, Sources, Theme, Unit};

fn ascii() -> Look {
    Look {
        theme: Theme::None,
        ..Look::default()
    }
}

fn one_in(unit: Unit, source: &str) -> Sources {
    let mut sources = Sources::with_unit(unit);
    sources.add("a.txt", source);
    sources
}

fn one(source: &str) -> Sources {
    one_in(Unit::Bytes, source)
}

#[test]
fn examples_are_drawn() {
    let all = examples();
    assert!(all.len() >= 10);
    for example in all {
        let drawn = draw(&example.sources, &example.reports, &ascii());
        assert_eq!(drawn.as_deref(), Ok(example.drawing), "{}", example.name);
        let drawn = draw_document(example.document, &ascii());
        assert_eq!(drawn.as_deref(), Ok(example.drawing), "{}", example.name);
        let lines = json(&example.sources, &example.reports).unwrap();
        assert_eq!(
            lines.lines().count(),
            example.reports.len(),
            "{}",
            example.name
        );
        let same = json_document(example.document.as_bytes());
        assert_eq!(same, Ok(lines), "{}", example.name);
    }
}

#[test]
fn documents_that_are_refused() {
    let files = r#""version": 2, "files": [{ "name": "a.txt", "source": "é\nabc" }]"#;
    let result = |file, label| {
        let first = r#"{ "file": 0, "message": "m" }"#;
        let second = format!(r#"{{ "file": {file}, "message": "m", "labels": [{label}] }}"#);
        draw_document(
            format!(r#"{{ {files}, "reports": [{first}, {second}] }}"#),
            &ascii(),
        )
    };
    let no_place = |at_end| {
        Err(DrawError::NoPlace {
            report: 1,
            label: 0,
            at_end,
        })
    };
    assert_eq!(result(0, r#"{ "bytes": [1, 2] }"#), no_place(false));
    assert_eq!(
        result(0, r#"{ "start": [2, 4], "end": [2, 5] }"#),
        no_place(true)
    );
    let reversed = DrawError::EndBeforeStart {
        report: 1,
        label: 0,
        start: 5,
        end: 3,
    };
    assert_eq!(
        result(0, r#"{ "start": [2, 3], "end": [2, 1] }"#),
        Err(reversed)
    );
    let unknown = DrawError::UnknownFile { report: 1 };
    assert_eq!(result(1, ""), Err(unknown));
    assert_eq!(unknown.to_string(), "report 1: there is no such file");
    for none in ["", "{", "[]", "{}", r#"{"files":[],"reports":[]} x"#] {
        assert_eq!(draw_document(none, &ascii()), Err(DrawError::NoDocument));
        assert_eq!(json_document(none), Err(DrawError::NoDocument));
    }
    assert_eq!(draw_document(b"\xff", &ascii()), Err(DrawError::NoDocument));
    let look = Look { tabs: 0, ..ascii() };
    assert_eq!(draw_document("{", &look), Err(DrawError::WrongLook));
    assert!(result(0, r#"{ "bytes": [3, 6] }"#).is_ok());
}

#[test]
fn looks_differ() {
    let (files, reports) = (
        one("let x = 1;\n"),
        [Report::error("oops").label(4..5, "here")],
    );
    let colored = Look {
        theme: Theme::Unicode,
        ..Look::default()
    };
    let drawn = |look| draw(&files, &reports, &look).unwrap();
    assert!(drawn(colored).contains("\u{1b}[") && drawn(colored).contains('╭'));
    assert!(!drawn(Look::default()).contains('\u{1b}') && drawn(Look::default()).contains('╭'));
    assert!(drawn(ascii()).is_ascii());
}

#[test]
fn refusals() {
    let files = one("é\nabc");
    let result = |label| {
        draw(
            &files,
            &[Report::error("m"), Report::error("m").with_label(label)],
            &ascii(),
        )
    };
    let no_place = |at_end| {
        Err(DrawError::NoPlace {
            report: 1,
            label: 0,
            at_end,
        })
    };
    assert_eq!(result(Label::new(1..2)), no_place(false));
    assert_eq!(result(Label::new(0..1)), no_place(true));
    assert_eq!(result(Label::new(0..7)), no_place(true));
    assert_eq!(result(Label::new(7..7)), no_place(false));
    assert_eq!(result(Label::new(0..usize::MAX)), no_place(true));
    assert_eq!(result(Label::new((1 << 32)..(1 << 32))), no_place(false));
    #[allow(clippy::reversed_empty_ranges)]
    let turned = result(Label::new(5..3));
    let reversed = DrawError::EndBeforeStart {
        report: 1,
        label: 0,
        start: 5,
        end: 3,
    };
    assert_eq!(turned, Err(reversed));
    assert_eq!(
        reversed.to_string(),
        "report 1: label 0: its end 3 is before its start 5"
    );
    assert!(result(Label::new(6..6)).is_ok());
}

#[test]
fn wrong_arguments() {
    let files = one("x");
    let wrong = |report| draw(&files, &[Report::error("m"), report], &ascii());
    let result = Err(DrawError::WrongReport { report: 1 });
    assert_eq!(wrong(Report::error("m").file(1)), result);
    assert_eq!(wrong(Report::error("m").file(u32::MAX)), result);
    assert_eq!(wrong(Report::error("m").scope("")), result);
    assert_eq!(wrong(Report::error("m").number("")), result);
    assert!(wrong(Report::error("").help("").note("").url("").label(0..0, "")).is_ok());
    for tabs in [0, 17, u32::MAX] {
        let look = Look { tabs, ..ascii() };
        assert_eq!(draw(&files, &[], &look), Err(DrawError::WrongLook));
    }
}

#[test]
fn nothing_is_drawn_of_nothing() {
    let none = Sources::new();
    assert!(none.is_empty());
    assert_eq!(one("").len(), 1);
    assert_eq!(draw(&none, &[], &ascii()).as_deref(), Ok(""));
    assert_eq!(draw(&one(""), &[], &ascii()).as_deref(), Ok(""));
    assert_eq!(json(&none, &[]).as_deref(), Ok(""));
    let wrong = DrawError::WrongReport { report: 0 };
    assert_eq!(draw(&none, &[Report::error("m")], &ascii()), Err(wrong));
    assert_eq!(
        draw(&one(""), &[Report::error("m")], &ascii()).as_deref(),
        Ok("\n  x m\n")
    );
}

#[test]
fn texts_of_all_kinds_are_drawn() {
    let files = one("日本 \0\té\n");
    let report = Report::warning("grün \0 日本")
        .label(3..6, "日\0本")
        .note("ñ")
        .help("ü");
    let drawn = draw(&files, &[report], &ascii()).unwrap();
    for text in ["grün", "日本", "ñ", "ü"] {
        assert!(drawn.contains(text), "{drawn}");
    }
}

#[test]
fn a_small_first_buffer_is_followed_by_one_that_fits() {
    // each label of this report has a row of its own, much longer than its text
    let source = "x\n".repeat(2000);
    let report = (0..2000).fold(Report::error("m"), |report, row| {
        report.label(2 * row..2 * row + 1, "y")
    });
    let drawn = draw(&one(&source), &[report], &ascii()).unwrap();
    assert_eq!(drawn.matches("`-- y").count(), 2000);
    assert!(drawn.len() > 2 * (source.len() + 2001) + 256 + 4096);
}

#[test]
fn a_small_first_buffer_of_a_document_is_followed_by_one_that_fits() {
    // every report shows the one long row
    let row = "x".repeat(3000);
    let label = r#"{ "start": [1, 1], "end": [1, 2], "text": "y" }"#;
    let report = format!(r#"{{ "file": 0, "message": "m", "labels": [{label}] }}"#);
    let reports = vec![report; 100].join(",");
    let files = format!(r#"[{{ "name": "a.txt", "source": "{row}" }}]"#);
    let document = format!(r#"{{ "files": {files}, "reports": [{reports}] }}"#);
    let drawn = draw_document(&document, &ascii()).unwrap();
    assert_eq!(drawn.matches(&row).count(), 100);
    assert!(drawn.len() > 2 * document.len() + 4096);
}

#[test]
fn many_reports_are_drawn_as_alone() {
    let files = one("let x = 1;\n");
    let report = Report::error("oops").label(4..5, "here");
    let alone = draw(&files, std::slice::from_ref(&report), &ascii()).unwrap();
    let many = draw(&files, &vec![report; 10_000], &ascii()).unwrap();
    assert_eq!(many, alone.repeat(10_000));
}

#[test]
fn threads_draw_at_once() {
    let all = examples();
    std::thread::scope(|scope| {
        for _ in 0..8 {
            scope.spawn(|| {
                for example in all.iter().cycle().take(500) {
                    let drawn = draw(&example.sources, &example.reports, &ascii());
                    assert_eq!(drawn.as_deref(), Ok(example.drawing));
                    let drawn = draw_document(example.document, &ascii());
                    assert_eq!(drawn.as_deref(), Ok(example.drawing));
                }
            });
        }
    });
}

#[test]
fn versions_agree() {
    let (major, minor, patch) = version();
    let said = format!("{major}.{minor}.{patch}");
    assert_eq!(said, env!("CARGO_PKG_VERSION"));
    assert_eq!(said, include_str!("../../../../VERSION").trim());
}

#[test]
fn units_are_converted() {
    // many blocks of the marks, of characters of all lengths
    let source = "a\u{e9}\u{65e5}\u{1f44d}\n".repeat(700);
    let line = |unit, range| {
        let report = Report::error("m").label(range, "here");
        json(&one_in(unit, &source), &[report])
    };
    for (byte, character) in source.char_indices().step_by(37) {
        let before = &source[..byte];
        let (characters, units) = (before.chars().count(), before.encode_utf16().count());
        let want = line(Unit::Bytes, byte..byte + character.len_utf8());
        assert!(want.is_ok());
        assert_eq!(line(Unit::Characters, characters..characters + 1), want);
        let range = units..units + character.len_utf16();
        assert_eq!(line(Unit::Utf16, range), want);
    }
}

#[test]
fn every_offset_of_every_file_has_its_byte() {
    let text = "\u{1f44d}\u{e9}x".repeat(400);
    for unit in [Unit::Characters, Unit::Utf16] {
        let mut sources = Sources::with_unit(unit);
        for source in ["", &text, "\u{e9}"] {
            sources.add("\u{1f44d}.txt", source);
        }
        let line = |file, at: usize| {
            let report = Report::error("m").file(file);
            json(&sources, &[report.with_label(Label::new(at..at))])
        };
        assert!(line(0, 0).is_ok() && line(0, 1).is_err());
        assert!(line(2, 0).is_ok() && line(2, 1).is_ok() && line(2, 2).is_err());
        let mut at = 0;
        for (byte, character) in text.char_indices() {
            let offset = format!("\"offset\": {byte},");
            assert!(line(1, at).unwrap().contains(&offset));
            at += match unit {
                Unit::Utf16 => character.len_utf16(),
                _ => 1,
            };
        }
        assert!(line(1, at).is_ok() && line(1, at + 1).is_err());
        assert!(unit == Unit::Characters || line(1, 1).is_err());
    }
}

#[test]
fn places_that_are_not_there_in_a_unit() {
    let sources = one_in(Unit::Utf16, "\u{1f44d}x");
    let drawn = |range| {
        let report = Report::error("m").with_label(Label::new(range));
        draw(&sources, &[report], &ascii())
    };
    let no_place = |at_end| {
        Err(DrawError::NoPlace {
            report: 0,
            label: 0,
            at_end,
        })
    };
    assert_eq!(drawn(1..2), no_place(false));
    assert_eq!(drawn(0..1), no_place(true));
    assert_eq!(drawn(0..4), no_place(true));
    assert_eq!(drawn(usize::MAX..usize::MAX), no_place(false));
    #[allow(clippy::reversed_empty_ranges)]
    let turned = drawn(3..2);
    let reversed = DrawError::EndBeforeStart {
        report: 0,
        label: 0,
        start: 3,
        end: 2,
    };
    assert_eq!(turned, Err(reversed));
}

#[test]
fn a_sink_gets_all_or_nothing() {
    let (sources, mut sink) = (one("x"), Vec::new());
    let report = |end| [Report::error("m").label(0..end, "here")];
    let refused = draw_to(&mut sink, &sources, &report(2), &ascii()).unwrap_err();
    assert!(refused.get_ref().unwrap().is::<DrawError>() && sink.is_empty());
    draw_to(&mut sink, &sources, &report(1), &ascii()).unwrap();
    let drawn = draw(&sources, &report(1), &ascii()).unwrap();
    assert_eq!(String::from_utf8(sink).unwrap(), drawn);
}

#[test]
fn files_may_be_added_between_draws() {
    let mut sources = one("first");
    let report = |file| [Report::error("m").file(file).label(0..1, "here")];
    let first = draw(&sources, &report(0), &ascii());
    assert!(draw(&sources, &report(1), &ascii()).is_err());
    assert_eq!(sources.add("b.txt", "second"), 1);
    let second = draw(&sources, &report(1), &ascii()).unwrap();
    assert!(second.contains("second"));
    assert_eq!(draw(&sources, &report(0), &ascii()), first);
    assert_eq!(draw(&sources.clone(), &report(0), &ascii()), first);
    let names = r#"Sources { unit: Bytes, files: ["a.txt", "b.txt"] }"#;
    assert_eq!(format!("{sources:?}"), names);
}

#[test]
fn threads_draw_from_the_same_sources() {
    let sources = one("let x = 1;\n");
    let report = [Report::error("m").label(4..5, "here")];
    let alone = draw(&sources, &report, &ascii());
    std::thread::scope(|scope| {
        for _ in 0..8 {
            scope.spawn(|| {
                for _ in 0..500 {
                    assert_eq!(draw(&sources, &report, &ascii()), alone);
                }
            });
        }
    });
}
