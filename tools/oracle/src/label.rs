//! Where a refusal comes from. moxcms has one error, `InvalidProfile`, for many checks. A build whose reader.rs is rewritten
//! so that these checks call `from_line` tells them apart (tools/bulk/build); in any other build nothing here is called.
use crate::{CmsError, Xyzd};
use std::cell::Cell;

thread_local!(static LINE: Cell<u32> = const { Cell::new(0) });

/// The line that was noted last, and 0 from then on.
pub fn take() -> u32 {
    LINE.take()
}

pub(crate) fn from_line(line: u32) -> CmsError {
    LINE.set(line);
    CmsError::InvalidProfile
}

pub(crate) fn default_from_line(line: u32) -> Xyzd {
    LINE.set(line);
    Xyzd::default()
}
