//! What calls take and give.

use crate::c;
use crate::error::{Answer, Error, answer};

/// A request.
#[derive(Clone, Debug, PartialEq, Eq)]
pub struct Request {
    pub from: u64,
    pub to: u64,
    /// The second in which the bundle is at the source.
    pub at: u64,
    /// The margin on light times, in parts per million.
    pub margin_ppm: u32,
    /// The most contacts of a route; 0 is no limit.
    pub max_hops: u32,
    /// The nodes to avoid, ascending.
    pub avoid: Vec<u64>,
}

impl Request {
    /// A request without a margin, limits, or nodes to avoid.
    pub fn new(from: u64, to: u64, at: u64) -> Request {
        Request { from, to, at, margin_ppm: 0, max_hops: 0, avoid: Vec::new() }
    }

    /// The request as C takes it, while this one stays.
    pub(crate) fn asked(&self) -> c::Request {
        c::Request {
            from: self.from,
            to: self.to,
            at: self.at,
            margin_ppm: self.margin_ppm,
            max_hops: self.max_hops,
            avoid: self.avoid.as_ptr(),
            avoids: self.avoid.len(),
        }
    }
}

/// A route.
#[derive(Clone, Debug, PartialEq, Eq)]
pub struct Route {
    /// The best-case delivery time.
    pub delivery: u64,
    /// The termination time.
    pub until: u64,
    /// The entry node.
    pub entry: u64,
    /// The contact numbers.
    pub contacts: Vec<u32>,
}

impl Route {
    pub(crate) fn of(row: &c::Route, contacts: &[u32]) -> Route {
        let contacts = contacts[row.first..row.first + row.hops].to_vec();
        Route { delivery: row.delivery, until: row.until, entry: row.entry, contacts }
    }
}

/// Some routes, and whether the list goes on after them.
#[derive(Clone, Debug, PartialEq, Eq)]
pub struct Page {
    pub routes: Vec<Route>,
    pub more: bool,
}

/// A hop: who sends to whom, when the bundle is sent and when it arrives, over which contact.
#[repr(C)]
#[derive(Clone, Copy, Debug, Default, PartialEq, Eq)]
pub struct Hop {
    pub from: u64,
    pub to: u64,
    pub sent: u64,
    pub arrival: u64,
    pub contact: u32,
}

/// A contact: its window, its rate in bytes a second, and its one-way light time in seconds if it has one.
#[derive(Clone, Copy, Debug, PartialEq, Eq)]
pub struct Contact {
    pub from: u64,
    pub to: u64,
    pub start: u64,
    pub end: u64,
    pub rate: u64,
    pub number: u32,
    pub light: Option<u32>,
}

impl From<c::Contact> for Contact {
    fn from(it: c::Contact) -> Contact {
        let light = it.has_light.then_some(it.light);
        Contact { from: it.from, to: it.to, start: it.start, end: it.end, rate: it.rate, number: it.number, light }
    }
}

/// A contact to add.
#[repr(C)]
#[derive(Clone, Copy, Debug, Default, PartialEq, Eq)]
pub struct NewContact {
    pub from: u64,
    pub to: u64,
    pub start: u64,
    pub end: u64,
    pub rate: u64,
}

/// The best route to a destination, without its contact numbers.
#[repr(C)]
#[derive(Clone, Copy, Debug, Default, PartialEq, Eq)]
pub struct Reach {
    pub delivery: u64,
    pub until: u64,
    pub entry: u64,
    pub hops: usize,
    /// The status of asking for it alone, by its number in cgrlist.h: 0 if there is a route, and 1 if there is none.
    pub status: u32,
}

/// A one-way light time in seconds between two nodes, over a window.
#[repr(C)]
#[derive(Clone, Copy, Debug, Default, PartialEq, Eq)]
pub struct Range {
    pub one: u64,
    pub other: u64,
    pub start: u64,
    pub end: u64,
    pub light: u32,
}

/// What a plan has, and the largest contact number given.
#[repr(C)]
#[derive(Clone, Copy, Debug, Default, PartialEq, Eq)]
pub struct Counts {
    pub contacts: u64,
    pub ranges: u64,
    pub nodes: u64,
    pub without_light: u64,
    pub greatest: u64,
}

/// Where a listing stands: how many routes were given, whether the list goes on, and whether a page can be taken back.
#[repr(C)]
#[derive(Clone, Copy, Debug, Default, PartialEq, Eq)]
pub struct Place {
    pub given: u64,
    pub more: bool,
    pub can_back: bool,
}

/// The page of a call that takes buffers, which grow until there is room.
pub(crate) fn page_of(mut call: impl FnMut(&mut [c::Route], &mut [u32], &mut c::Page) -> u32) -> Result<Page, Error> {
    let (mut rows, mut contacts, mut page) = (Vec::new(), Vec::new(), c::Page::default());
    while answer(call(&mut rows, &mut contacts, &mut page))? == Answer::Room {
        rows.resize(page.routes, c::Route::default());
        contacts.resize(page.contacts, 0);
    }
    let routes = rows[..page.written].iter().map(|row| Route::of(row, &contacts)).collect();
    Ok(Page { routes, more: page.more })
}

/// The list of a call that takes a buffer for it, such as a text.
pub(crate) fn list_of<T: Clone + Default>(mut call: impl FnMut(&mut [T], &mut usize) -> u32) -> Result<Vec<T>, Error> {
    let (mut list, mut count) = (Vec::new(), 0);
    while answer(call(&mut list, &mut count))? == Answer::Room {
        list.resize(count, T::default());
    }
    Ok(list)
}
