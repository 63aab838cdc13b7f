//! The routes of a contact plan, best first: a safe wrapper of the C library cgrlist.
//!
//! ```no_run
//! let plan = cgrlist::Plan::read(&std::fs::read("relay.txt")?)?;
//! if let Some(route) = plan.best(&cgrlist::Request::new(31, 1, 1893458700))? {
//!     println!("{} over {:?}", route.delivery, route.contacts);
//! }
//! # Ok::<(), Box<dyn std::error::Error>>(())
//! ```
//!
//! Times are whole seconds since 1970-01-01T00:00:00Z. A plan and a listing can be sent to another thread, and are used by one
//! thread at a time. cgrlist(3) says what the calls do and what they refuse.

mod c;
mod error;
mod listing;
mod plan;
mod rows;

pub use error::{Error, Fault};
pub use listing::Listing;
pub use plan::Plan;
pub use rows::{Contact, Counts, Hop, NewContact, Page, Place, Range, Reach, Request, Route};

/// The version of the interface that this crate calls; that of the library is [`library_abi`].
pub const ABI: u32 = 2;

/// The version of the library's interface.
pub fn library_abi() -> u32 {
    c::cgrlist_abi()
}
