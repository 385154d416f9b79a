//! What the library says of itself.

use crate::raw;
use std::ffi::{CStr, c_char};

/// A text of the library, which is there as long as the program runs.
fn text(at: *const c_char) -> &'static str {
    // SAFETY: `at` is one of the library's constants, which end with a zero byte.
    let text = unsafe { CStr::from_ptr(at) };
    text.to_str().expect("a text of the library is UTF-8")
}

/// The library's version, such as `0.3.0`; `0.3.0-unproved` if it was built without a proof.
#[must_use]
pub fn version() -> &'static str {
    // SAFETY: the call has no premises.
    text(unsafe { raw::x3d_version() })
}

/// Whether the library has the binary interface that this crate was written for. Check it once, where the library is
/// linked dynamically and may be another one at run time.
#[must_use]
pub fn is_compatible() -> bool {
    // SAFETY: the call has no premises.
    unsafe { raw::x3d_abi() == raw::ABI }
}

/// What a status means, in a few words.
pub(crate) fn status_text(status: u8) -> &'static str {
    // SAFETY: the call has no premises.
    text(unsafe { raw::x3d_status_text(status) })
}
