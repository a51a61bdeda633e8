//! With a library of another ABI, every call says so.
#![cfg(other_abi)]

use girzohal::{draw, draw_document, DrawError, Look, Sources};

#[test]
fn every_call_is_refused() {
    let (sources, look) = (Sources::new(), Look::default());
    assert_eq!(draw(&sources, &[], &look), Err(DrawError::WrongAbi));
    assert_eq!(draw_document("", &look), Err(DrawError::WrongAbi));
    assert_eq!(
        DrawError::WrongAbi.to_string(),
        "the library has another ABI"
    );
}
