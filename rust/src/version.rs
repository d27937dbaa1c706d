//! The version of the library's interface.

use crate::raw;

/// The version that this crate is written for, `DRAINAGE_VERSION` of `include/drainage.h`. It is raised by one whenever
/// a function, a reply or a length of the library's interface changes.
pub const VERSION: u32 = 1;

/// The version of the library that is linked: [`VERSION`], if it belongs to this crate.
#[must_use]
pub fn version() -> u32 {
    // SAFETY: nothing is lent.
    unsafe { raw::drainage_version() }
}
