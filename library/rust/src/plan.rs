//! Plans.

use crate::c;
use crate::error::{Answer, Error, Fault, answer, answer_at};
use crate::listing::Listing;
use crate::rows::{Contact, Counts, Hop, NewContact, Page, Range, Reach, Request, Route, list_of, page_of};
use std::ptr::null_mut;

/// A contact plan.
#[derive(Debug)]
pub struct Plan(*mut c::Plan);

// SAFETY: the library has no global state, so a plan may be used and closed by any thread; it isn't `Sync`.
unsafe impl Send for Plan {}

// SAFETY, of each call below: the plan is open, each length is that of its buffer, and no buffers overlap.
impl Plan {
    /// An empty plan.
    pub fn new() -> Result<Plan, Error> {
        let mut plan = null_mut();
        answer(unsafe { c::cgrlist_plan_new(&mut plan) })?;
        Ok(Plan(plan))
    }

    /// The plan of a text in the form of ionrc(5).
    pub fn read(text: &[u8]) -> Result<Plan, Error> {
        let (mut plan, mut line) = (null_mut(), 0);
        let status = unsafe { c::cgrlist_plan_read(&mut plan, text.as_ptr(), text.len(), &mut line) };
        answer_at(status, line)?;
        Ok(Plan(plan))
    }

    /// A copy, with the numbers of the contacts.
    pub fn copy(&self) -> Result<Plan, Error> {
        let mut copy = null_mut();
        answer(unsafe { c::cgrlist_plan_copy(self.0, &mut copy) })?;
        Ok(Plan(copy))
    }

    /// Makes what later calls would make: the index of searches, the digest and the counts.
    pub fn prepare(&mut self) -> Result<(), Error> {
        answer(unsafe { c::cgrlist_plan_prepare(self.0) }).map(drop)
    }

    /// Adds a contact, and returns its number.
    pub fn add_contact(&mut self, from: u64, to: u64, start: u64, end: u64, rate: u64) -> Result<u32, Error> {
        let mut number = 0;
        answer(unsafe { c::cgrlist_plan_add_contact(self.0, from, to, start, end, rate, &mut number) })?;
        Ok(number)
    }

    /// Adds a range.
    pub fn add_range(&mut self, range: &Range) -> Result<(), Error> {
        let Range { one, other, start, end, light } = *range;
        answer(unsafe { c::cgrlist_plan_add_range(self.0, one, other, start, end, light) }).map(drop)
    }

    /// Deletes a contact, and returns its number.
    pub fn delete_contact(&mut self, from: u64, to: u64, start: u64) -> Result<u32, Error> {
        let mut number = 0;
        answer(unsafe { c::cgrlist_plan_delete_contact(self.0, from, to, start, &mut number) })?;
        Ok(number)
    }

    /// Deletes the contact with a number.
    pub fn delete_number(&mut self, number: u32) -> Result<(), Error> {
        answer(unsafe { c::cgrlist_plan_delete_number(self.0, number) }).map(drop)
    }

    /// Adds contacts, all or none. The line of an error is the place from 0 of the first that is refused.
    pub fn add_contacts(&mut self, contacts: &[NewContact]) -> Result<(), Error> {
        let mut place = 0;
        let status = unsafe { c::cgrlist_plan_add_contacts(self.0, contacts.as_ptr(), contacts.len(), &mut place) };
        answer_at(status, place as u64).map(drop)
    }

    /// Adds ranges, all or none. The line of an error is the place from 0 of the first that is refused.
    pub fn add_ranges(&mut self, ranges: &[Range]) -> Result<(), Error> {
        let mut place = 0;
        let status = unsafe { c::cgrlist_plan_add_ranges(self.0, ranges.as_ptr(), ranges.len(), &mut place) };
        answer_at(status, place as u64).map(drop)
    }

    /// A copy of what ends after a second, with the contacts numbered from 1 on, and the number here of each of them.
    pub fn renumber(&self, second: u64) -> Result<(Plan, Vec<u32>), Error> {
        let (mut copy, mut numbers) = (null_mut(), vec![0; self.greatest()? as usize]);
        answer(unsafe { c::cgrlist_plan_renumber(self.0, second, &mut copy, numbers.as_mut_ptr(), numbers.len()) })?;
        let copy = Plan(copy);
        numbers.truncate(copy.greatest()? as usize);
        Ok((copy, numbers))
    }

    /// Deletes a range.
    pub fn delete_range(&mut self, one: u64, other: u64, start: u64) -> Result<(), Error> {
        answer(unsafe { c::cgrlist_plan_delete_range(self.0, one, other, start) }).map(drop)
    }

    /// The plan as a text, from which [`Plan::read`] makes it again.
    pub fn text(&self) -> Result<Vec<u8>, Error> {
        list_of(|text, bytes| unsafe { c::cgrlist_plan_text(self.0, text.as_mut_ptr(), text.len(), bytes) })
    }

    /// The canonical text, of which the digest is the SHA-256. [`Plan::read`] doesn't read it.
    pub fn canonical(&self) -> Result<Vec<u8>, Error> {
        list_of(|text, bytes| unsafe { c::cgrlist_plan_canonical(self.0, text.as_mut_ptr(), text.len(), bytes) })
    }

    /// What the plan has.
    pub fn counts(&self) -> Result<Counts, Error> {
        let mut counts = Counts::default();
        answer(unsafe { c::cgrlist_plan_counts(self.0, &mut counts) })?;
        Ok(counts)
    }

    /// The largest contact number given.
    pub fn greatest(&self) -> Result<u32, Error> {
        let mut number = 0;
        answer(unsafe { c::cgrlist_plan_greatest(self.0, &mut number) })?;
        Ok(number)
    }

    /// The nodes that send or receive a contact, ascending.
    pub fn nodes(&self) -> Result<Vec<u64>, Error> {
        list_of(|nodes, count| unsafe { c::cgrlist_plan_nodes(self.0, nodes.as_mut_ptr(), nodes.len(), count) })
    }

    /// The SHA-256 that session texts name.
    pub fn digest(&self) -> Result<[u8; 32], Error> {
        let mut digest = [0; 32];
        answer(unsafe { c::cgrlist_plan_digest(self.0, digest.as_mut_ptr()) })?;
        Ok(digest)
    }

    /// The contact with a number, if it stands.
    pub fn contact(&self, number: u32) -> Result<Option<Contact>, Error> {
        let mut found = c::Contact::default();
        let given = answer(unsafe { c::cgrlist_plan_contact(self.0, number, &mut found) })?;
        Ok((given == Answer::Done).then(|| found.into()))
    }

    /// The contacts that stand, in the order of their numbers.
    pub fn contacts(&self) -> impl Iterator<Item = Contact> {
        (0..).map_while(|place| {
            let mut found = c::Contact::default();
            let status = unsafe { c::cgrlist_plan_contact_at(self.0, place, &mut found) };
            (status == 0).then(|| found.into())
        })
    }

    /// The ranges that stand, in the order of their nodes and starts.
    pub fn ranges(&self) -> impl Iterator<Item = Range> {
        (0..).map_while(|place| {
            let mut found = Range::default();
            let status = unsafe { c::cgrlist_plan_range_at(self.0, place, &mut found) };
            (status == 0).then_some(found)
        })
    }

    /// The best route of a request, if there is one.
    pub fn best(&self, request: &Request) -> Result<Option<Route>, Error> {
        let (asked, mut row, mut contacts) = (request.asked(), c::Route::default(), vec![0; 64]);
        loop {
            match answer(unsafe { c::cgrlist_best(self.0, &asked, &mut row, contacts.as_mut_ptr(), contacts.len()) })? {
                Answer::Done => return Ok(Some(Route::of(&row, &contacts))),
                Answer::No => return Ok(None),
                Answer::Room => contacts.resize(row.hops, 0),
            }
        }
    }

    /// The best route to each destination, in place of the request's.
    pub fn best_each(&self, request: &Request, to: &[u64]) -> Result<Vec<Reach>, Error> {
        let (asked, mut reaches) = (request.asked(), vec![Reach::default(); to.len()]);
        answer(unsafe { c::cgrlist_best_each(self.0, &asked, to.as_ptr(), to.len(), reaches.as_mut_ptr()) })?;
        Ok(reaches)
    }

    /// The first routes of a request, at most 10000.
    pub fn first(&self, request: &Request, count: u32) -> Result<Page, Error> {
        let asked = request.asked();
        page_of(|rows, contacts, page| unsafe {
            c::cgrlist_first(self.0, &asked, count, rows.as_mut_ptr(), rows.len(), contacts.as_mut_ptr(), contacts.len(), page)
        })
    }

    /// The route that contacts make, or their first fault.
    pub fn follow(&self, request: &Request, contacts: &[u32]) -> Result<Result<Route, Fault>, Error> {
        let (asked, mut found) = (request.asked(), c::Outcome::default());
        let status = unsafe { c::cgrlist_follow(self.0, &asked, contacts.as_ptr(), contacts.len(), &mut found) };
        let c::Outcome { delivery, until, entry, place, fault } = found;
        Ok(match answer(status)? {
            Answer::Done => Ok(Route { delivery, until, entry, contacts: contacts.to_vec() }),
            Answer::No | Answer::Room => Err(Fault { fault, place }),
        })
    }

    /// The hops of contacts, up to their first fault.
    pub fn hops(&self, request: &Request, contacts: &[u32]) -> Result<Vec<Hop>, Error> {
        let (asked, mut hops, mut count) = (request.asked(), vec![Hop::default(); contacts.len()], 0);
        answer(unsafe {
            c::cgrlist_hops(self.0, &asked, contacts.as_ptr(), contacts.len(), hops.as_mut_ptr(), hops.len(), &mut count)
        })?;
        hops.truncate(count);
        Ok(hops)
    }

    /// The listing of a request.
    pub fn list(&self, request: &Request) -> Result<Listing, Error> {
        let (asked, mut listing) = (request.asked(), null_mut());
        answer(unsafe { c::cgrlist_listing_open(self.0, &asked, &mut listing) })?;
        Ok(Listing::of(listing))
    }

    /// The listing of a session text.
    pub fn load(&self, text: &[u8]) -> Result<Listing, Error> {
        let (mut listing, mut line) = (null_mut(), 0);
        let status = unsafe { c::cgrlist_listing_load(self.0, text.as_ptr(), text.len(), &mut listing, &mut line) };
        answer_at(status, line)?;
        Ok(Listing::of(listing))
    }

    /// Whether a text is the session text of a place in the list of its request.
    pub fn verify(&self, text: &[u8]) -> Result<bool, Error> {
        Ok(answer(unsafe { c::cgrlist_verify(self.0, text.as_ptr(), text.len()) })? == Answer::Done)
    }
}

impl Drop for Plan {
    fn drop(&mut self) {
        unsafe { c::cgrlist_plan_close(self.0) }
    }
}
