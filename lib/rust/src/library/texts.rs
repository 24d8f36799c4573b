//! What the library says of refusals, and of itself.

use super::{copied, lent, no_text, Bytes};
use crate::error::{Error, Reason, Refused};
use crate::sys;
use std::str;

/// What the program prints of a code, which stays where it is.
pub(crate) fn code_text(code: sys::smap_code) -> &'static str {
    let mut text = no_text();
    let words = unsafe {
        sys::smap_code_text(code, &mut text);
        lent(&text)
    };
    str::from_utf8(words).unwrap_or_default()
}

/// Why the file of these bytes is refused so. Of a refusal that no map has, nothing.
pub(crate) fn reason(bytes: &[u8], refusal: &sys::smap_refusal) -> Result<Option<Reason>, Error> {
    let mut known = sys::smap_reason::default();
    let call = |text| unsafe {
        sys::smap_refusal_explain(bytes.as_ptr(), bytes.len(), refusal, &mut known, text)
    };
    let lines = match Bytes::of(call, Refused::nothing) {
        Ok(lines) => lines.to_text(),
        Err(Error::Refused(_)) => return Ok(None),
        Err(error) => return Err(error),
    };
    Ok(Some(Reason {
        value: (known.has_value != 0).then_some(known.value),
        least: (known.has_least != 0).then_some(known.least),
        most: (known.has_most != 0).then_some(known.most),
        column: (known.has_column != 0).then_some(known.generated_column),
        // The first line is that of the refusal.
        text: lines
            .split_once('\n')
            .map_or("", |(_, text)| text)
            .to_string(),
    }))
}

/// The version, which stays where it is.
pub(crate) fn version() -> String {
    let mut text = no_text();
    unsafe {
        sys::smap_version(&mut text);
        copied(&text)
    }
}
