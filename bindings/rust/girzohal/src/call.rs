//! The calls of the C library. All `unsafe` of the crate is here.

use girzohal_sys::{Answer, File, Label, Look, Report};

/// What `girzohal_draw` is given, except for the look.
pub(crate) struct Arrays<'a> {
    pub texts: &'a str,
    pub files: &'a [File],
    pub reports: &'a [Report],
    pub labels: &'a [Label],
}

/// Writes reports after a vector's bytes, into its room. Returns the status, and the rest in the answer.
pub(crate) fn draw(
    arrays: &Arrays<'_>,
    look: &Look,
    out: &mut Vec<u8>,
    answer: &mut Answer,
) -> u32 {
    let room = out.spare_capacity_mut();
    // SAFETY: each pointer and length are those of one slice, so they are valid, aligned and not null; `out` and `answer`
    // are borrowed for the call only, so they overlap nothing, and the call writes to the room and reads nothing there.
    // Any number in the structs is allowed.
    let status = unsafe {
        girzohal_sys::girzohal_draw(
            girzohal_sys::ABI,
            arrays.texts.as_ptr(),
            arrays.texts.len(),
            arrays.files.as_ptr(),
            arrays.files.len(),
            arrays.reports.as_ptr(),
            arrays.reports.len(),
            arrays.labels.as_ptr(),
            arrays.labels.len(),
            look,
            room.as_mut_ptr().cast(),
            room.len(),
            answer,
        )
    };
    // SAFETY: see `take`.
    unsafe { take(status, out, answer) }
}

/// Writes the reports of a document after a vector's bytes, as [`draw`] does.
pub(crate) fn draw_document(
    document: &[u8],
    look: &Look,
    out: &mut Vec<u8>,
    answer: &mut Answer,
) -> u32 {
    let room = out.spare_capacity_mut();
    // SAFETY: as in `draw`. The document may have any bytes.
    let status = unsafe {
        girzohal_sys::girzohal_document(
            girzohal_sys::ABI,
            document.as_ptr(),
            document.len(),
            look,
            room.as_mut_ptr().cast(),
            room.len(),
            answer,
        )
    };
    // SAFETY: see `take`.
    unsafe { take(status, out, answer) }
}

/// Makes what a call wrote into the room a part of the vector.
///
/// # Safety
///
/// The status and the answer are those of a call that was given all of the vector's room: with status 0 it wrote the
/// first `needed` bytes of it.
unsafe fn take(status: u32, out: &mut Vec<u8>, answer: &Answer) -> u32 {
    if status == girzohal_sys::DONE {
        let len = out.len() + answer.needed;
        debug_assert!(len <= out.capacity());
        // SAFETY: these bytes were written, as this function's condition says.
        unsafe { out.set_len(len) };
    }
    status
}

/// What calls wrote, as a text.
pub(crate) fn text(written: Vec<u8>) -> String {
    debug_assert!(std::str::from_utf8(&written).is_ok());
    // SAFETY: what the library writes is UTF-8; that is proved (the clause `utf8` of its contract).
    unsafe { String::from_utf8_unchecked(written) }
}

/// The version of the library: major, minor and patch, a byte each.
pub(crate) fn version() -> u32 {
    // SAFETY: the call takes nothing and returns a number.
    unsafe { girzohal_sys::girzohal_version() }
}
