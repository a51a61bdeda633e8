// The examples of the repository, as calls of the builder. Made by bindings/examples.py: don't edit.
use girzohal::{Label, Report, Sources};

pub struct Example {
    pub name: &'static str,
    pub sources: Sources,
    pub reports: Vec<Report>,
    pub document: &'static str,
    pub drawing: &'static str,
}

fn by_bytes() -> Example {
    let mut sources = Sources::new();
    sources.add("a.js", "foo\u{a}bar\u{a}baz");
    let reports = vec![
        Report::error("Oops")
        .file(0)
        .with_label(Label::new(4..7).text("here")),
    ];
    Example {
        name: "by-bytes",
        sources,
        reports,
        document: include_str!("../../../../../examples/by-bytes.json"),
        drawing: include_str!("../../../../../examples/by-bytes.txt"),
    }
}

fn byte_order_mark() -> Example {
    let mut sources = Sources::new();
    sources.add("u", "\u{feff}ab");
    let reports = vec![
        Report::error("m")
        .file(0)
        .with_label(Label::new(3..4)),
    ];
    Example {
        name: "byte-order-mark",
        sources,
        reports,
        document: include_str!("../../../../../examples/byte-order-mark.json"),
        drawing: include_str!("../../../../../examples/byte-order-mark.txt"),
    }
}

fn cart() -> Example {
    let mut sources = Sources::new();
    sources.add("src/cart.js", "function total(cart) {\u{a}\u{9}let sum = 0;\u{a}\u{9}for (const item of cart) {\u{a}\u{9}\u{9}sum += item.prize * item.count;\u{a}\u{9}}\u{a}\u{9}return sum;\u{a}}\u{a}");
    let reports = vec![
        Report::error("`prize` is no field of an item.")
        .file(0)
        .scope("lint")
        .number("no-unknown-field")
        .help("Did you mean `price`?")
        .with_label(Label::new(79..84).text("not among its fields").primary())
        .with_label(Label::new(74..78).text("an item of the cart"))
        .with_label(Label::new(38..101).text("in this loop")),
    ];
    Example {
        name: "cart",
        sources,
        reports,
        document: include_str!("../../../../../examples/cart.json"),
        drawing: include_str!("../../../../../examples/cart.txt"),
    }
}

fn first_row() -> Example {
    let mut sources = Sources::new();
    sources.add("query.sql", "SELEC name FROM users;\u{a}");
    let reports = vec![
        Report::error("Unknown keyword.")
        .file(0)
        .with_label(Label::new(0..5).text("did you mean SELECT?")),
    ];
    Example {
        name: "first-row",
        sources,
        reports,
        document: include_str!("../../../../../examples/first-row.json"),
        drawing: include_str!("../../../../../examples/first-row.txt"),
    }
}

fn oops() -> Example {
    let mut sources = Sources::new();
    sources.add("a.js", "foo\u{a}bar\u{a}baz");
    let reports = vec![
        Report::error("Oops")
        .file(0)
        .with_label(Label::new(4..7).text("here")),
    ];
    Example {
        name: "oops",
        sources,
        reports,
        document: include_str!("../../../../../examples/oops.json"),
        drawing: include_str!("../../../../../examples/oops.txt"),
    }
}

fn tab_past_ascii() -> Example {
    let mut sources = Sources::new();
    sources.add("t", "\u{e9}\u{9}xyz");
    let reports = vec![
        Report::error("m")
        .file(0)
        .with_label(Label::new(5..6)),
    ];
    Example {
        name: "tab-past-ascii",
        sources,
        reports,
        document: include_str!("../../../../../examples/tab-past-ascii.json"),
        drawing: include_str!("../../../../../examples/tab-past-ascii.txt"),
    }
}

fn two_reports() -> Example {
    let mut sources = Sources::new();
    sources.add("src/app.js", "import { a } from \u{22}x\u{22};\u{a}\u{a}function f(b) {\u{a}\u{9}return a + c;\u{a}}\u{a}");
    sources.add("b.js", "a {\u{a}  b\u{a}}\u{a}");
    let reports = vec![
        Report::warning("'c' is not defined.")
        .file(0)
        .scope("eslint")
        .number("no-undef")
        .help("Declare it or import it.")
        .with_label(Label::new(52..53).text("not found"))
        .with_label(Label::new(33..34).text("in this function")),
        Report::error("Unused block.")
        .file(1)
        .with_label(Label::new(2..9).text("block")),
    ];
    Example {
        name: "two-reports",
        sources,
        reports,
        document: include_str!("../../../../../examples/two-reports.json"),
        drawing: include_str!("../../../../../examples/two-reports.txt"),
    }
}

fn unused_variable() -> Example {
    let mut sources = Sources::new();
    sources.add("src/total.js", "export function total(items) {\u{a}  let count = items.length;\u{a}  let sum = 0;\u{a}  for (const item of items) sum += item.price;\u{a}  return sum;\u{a}}\u{a}");
    let reports = vec![
        Report::error("Variable 'count' is declared but never used.")
        .file(0)
        .with_label(Label::new(37..42).text("'count' is declared here")),
    ];
    Example {
        name: "unused-variable",
        sources,
        reports,
        document: include_str!("../../../../../examples/unused-variable.json"),
        drawing: include_str!("../../../../../examples/unused-variable.txt"),
    }
}

fn wide_characters() -> Example {
    let mut sources = Sources::new();
    sources.add("w", "\u{65e5}\u{672c} x");
    let reports = vec![
        Report::error("m")
        .file(0)
        .with_label(Label::new(3..6).text("w")),
    ];
    Example {
        name: "wide-characters",
        sources,
        reports,
        document: include_str!("../../../../../examples/wide-characters.json"),
        drawing: include_str!("../../../../../examples/wide-characters.txt"),
    }
}

fn wide_numbers() -> Example {
    let mut sources = Sources::new();
    sources.add("Makefile", "all: a b c\u{a}\u{a}a:\u{a}\u{a}a2:\u{a}\u{a}b:\u{a}\u{a}b2: c d\u{a}\u{a}c:\u{a}");
    let reports = vec![
        Report::error("No rule to make target 'd'.")
        .file(0)
        .with_label(Label::new(31..32).text("needed here")),
    ];
    Example {
        name: "wide-numbers",
        sources,
        reports,
        document: include_str!("../../../../../examples/wide-numbers.json"),
        drawing: include_str!("../../../../../examples/wide-numbers.txt"),
    }
}

pub fn examples() -> Vec<Example> {
    vec![by_bytes(), byte_order_mark(), cart(), first_row(), oops(), tab_past_ascii(), two_reports(), unused_variable(), wide_characters(), wide_numbers()]
}
