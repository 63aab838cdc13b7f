//! Listings.

use crate::c;
use crate::error::{Answer, Error, answer};
use crate::rows::{Page, Place, list_of, page_of};

/// All routes of a request, page after page, over a copy of the plan as it stood when the listing was opened.
#[derive(Debug)]
pub struct Listing(*mut c::Listing);

// SAFETY: the library has no global state, so a listing may be used and closed by any thread; it isn't `Sync`.
unsafe impl Send for Listing {}

impl Listing {
    /// The listing that the library opened.
    pub(crate) fn of(opened: *mut c::Listing) -> Listing {
        Listing(opened)
    }

    /// The next routes, at most 10000.
    pub fn next(&mut self, count: u32) -> Result<Page, Error> {
        // SAFETY: the listing is open, and the lengths are those of the buffers.
        page_of(|rows, contacts, page| unsafe {
            c::cgrlist_listing_next(self.0, count, rows.as_mut_ptr(), rows.len(), contacts.as_mut_ptr(), contacts.len(), page)
        })
    }

    /// Takes the last page that had routes back, and returns false if there is none.
    pub fn back(&mut self) -> Result<bool, Error> {
        // SAFETY: the listing is open.
        Ok(answer(unsafe { c::cgrlist_listing_back(self.0) })? == Answer::Done)
    }

    /// Where the listing stands.
    pub fn place(&self) -> Result<Place, Error> {
        let mut place = Place::default();
        // SAFETY: the listing is open.
        answer(unsafe { c::cgrlist_listing_place(self.0, &mut place) })?;
        Ok(place)
    }

    /// The session text.
    pub fn text(&self) -> Result<Vec<u8>, Error> {
        // SAFETY: the listing is open, and the length is that of the buffer.
        list_of(|text, bytes| unsafe { c::cgrlist_listing_text(self.0, text.as_mut_ptr(), text.len(), bytes) })
    }
}

impl Drop for Listing {
    fn drop(&mut self) {
        // SAFETY: the listing is open, and nothing uses it after this.
        unsafe { c::cgrlist_listing_close(self.0) }
    }
}
