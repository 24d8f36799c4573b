//! How refusals are made.

use super::Refused;
use crate::{library, sys};

impl Refused {
    /// Why something is refused, where the code says it.
    pub(crate) fn new(code: sys::smap_code) -> Refused {
        Refused {
            code,
            words: library::code_text(code),
            name: None,
            map: None,
            lines: None,
        }
    }

    /// The same, where these words say it.
    fn said(code: sys::smap_code, words: &'static str) -> Refused {
        Refused {
            words,
            ..Refused::new(code)
        }
    }

    /// Why a map is refused.
    pub(crate) fn map(refusal: sys::smap_refusal, base: Option<&str>) -> Refused {
        let (refused, name) = match refusal.code {
            sys::SMAP_CODE_USAGE => (Refused::said(refusal.code, "the base is no URL"), base),
            sys::SMAP_CODE_U1 => (Refused::said(refusal.code, "the base is too long"), None),
            code => (Refused::new(code), None),
        };
        Refused {
            name: name.map(str::to_string),
            map: Some(refusal),
            ..refused
        }
    }

    /// Whether it is that of a base which is no URL.
    pub(crate) fn is_no_url(&self) -> bool {
        self.map.is_some() && self.code == sys::SMAP_CODE_USAGE
    }

    /// Why a text is not rewritten.
    pub(crate) fn text(refusal: sys::smap_rewrite_refusal) -> Refused {
        match refusal.code {
            sys::SMAP_CODE_USAGE => Refused::places_of_all(),
            sys::SMAP_CODE_X5 => Refused::long_output(refusal.lines),
            code => Refused::new(code),
        }
    }

    /// Why no more is written than so many lines.
    pub(crate) fn long_output(lines: u64) -> Refused {
        Refused {
            lines: Some(lines),
            ..Refused::new(sys::SMAP_CODE_X5)
        }
    }

    /// Why places are not rewritten over a map of all URLs.
    pub(crate) fn places_of_all() -> Refused {
        Refused::said(sys::SMAP_CODE_USAGE, "* is not for places anywhere")
    }

    /// Why no folder stands under a prefix.
    pub(crate) fn prefix() -> Refused {
        Refused::said(sys::SMAP_CODE_USAGE, "a prefix ends in / and is no pattern")
    }

    /// Of calls that refuse nothing.
    pub(crate) fn nothing() -> Refused {
        Refused::new(sys::SMAP_CODE_REFUSED)
    }
}
