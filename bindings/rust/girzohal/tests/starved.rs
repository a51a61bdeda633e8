//! Each allocation of the library fails in turn: the result is out of memory, or the right drawing.
#![cfg(starved)]

#[rustfmt::skip]
mod examples;

use girzohal::{draw, draw_document, json, json_document, DrawError, Look, Theme};

extern "C" {
    /// Makes the library's allocation after so many others fail, or none if the number is negative.
    fn girzohal_starve(left: i64);
    /// How many allocations there were since.
    fn girzohal_asked() -> i64;
}

fn starve(left: i64) {
    // SAFETY: the call sets a number of the thread's own.
    unsafe { girzohal_starve(left) }
}

fn starved(name: &str, drawing: &str, call: impl Fn() -> Result<String, DrawError>) {
    starve(-1);
    assert_eq!(call().as_deref(), Ok(drawing), "{name}");
    // SAFETY: the call reads a number of the thread's own.
    let asked = unsafe { girzohal_asked() };
    let mut failures = 0;
    for at in 0..asked {
        starve(at);
        let result = call();
        starve(-1);
        match result {
            Ok(text) => assert_eq!(text, drawing, "{name}"),
            Err(error) => {
                assert_eq!(error, DrawError::OutOfMemory, "{name}");
                failures += 1;
            }
        }
    }
    assert!(failures > 0, "{name}");
}

#[test]
fn out_of_memory_is_returned() {
    let look = Look {
        theme: Theme::None,
        ..Look::default()
    };
    for e in examples::examples() {
        starved(e.name, e.drawing, || draw(&e.sources, &e.reports, &look));
        let lines = json(&e.sources, &e.reports).unwrap();
        starved(e.name, &lines, || json(&e.sources, &e.reports));
        starved(e.name, e.drawing, || draw_document(e.document, &look));
        starved(e.name, &lines, || json_document(e.document));
    }
}
