//! The archive's functions: linked, or, with the feature `served`, in a
//! program of their own.

#[cfg(not(feature = "served"))]
use scatterflock::raw;
#[cfg(feature = "served")]
use served as raw;

pub use raw::{bundle_read, bundle_write, day, sheet, Contents};
pub use raw::{check, solve, solve_within, times};
pub use raw::{check_times, check_wide};
pub use raw::{first_violation, session_violation, Violation};
pub use raw::{replay, trace};
pub use raw::{session_check, session_open, session_switch, Session};
pub use raw::{slice_continue, slice_start, Slice};
pub use raw::{smtlib_read, smtlib_write, Exchanged};

/// Whether they are linked into this program.
pub const LINKED: bool = cfg!(not(feature = "served"));
