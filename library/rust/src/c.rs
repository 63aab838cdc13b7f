//! What cgrlist.h declares.

use std::ffi::c_char;

/// A plan of the library.
#[repr(C)]
pub struct Plan {
    _private: [u8; 0],
}

/// A listing of the library.
#[repr(C)]
pub struct Listing {
    _private: [u8; 0],
}

#[repr(C)]
pub struct Request {
    pub from: u64,
    pub to: u64,
    pub at: u64,
    pub margin_ppm: u32,
    pub max_hops: u32,
    pub avoid: *const u64,
    pub avoids: usize,
}

#[repr(C)]
#[derive(Clone, Copy, Default)]
pub struct Route {
    pub delivery: u64,
    pub until: u64,
    pub entry: u64,
    pub first: usize,
    pub hops: usize,
}

#[repr(C)]
#[derive(Default)]
pub struct Page {
    pub routes: usize,
    pub contacts: usize,
    pub written: usize,
    pub more: bool,
}

#[repr(C)]
#[derive(Default)]
pub struct Outcome {
    pub delivery: u64,
    pub until: u64,
    pub entry: u64,
    pub place: u64,
    pub fault: u32,
}

#[repr(C)]
#[derive(Default)]
pub struct Contact {
    pub from: u64,
    pub to: u64,
    pub start: u64,
    pub end: u64,
    pub rate: u64,
    pub number: u32,
    pub light: u32,
    pub has_light: bool,
}

unsafe extern "C" {
    pub fn cgrlist_plan_new(plan: *mut *mut Plan) -> u32;
    pub fn cgrlist_plan_read(plan: *mut *mut Plan, text: *const u8, bytes: usize, line: *mut u64) -> u32;
    pub fn cgrlist_plan_copy(plan: *const Plan, copy: *mut *mut Plan) -> u32;
    pub fn cgrlist_plan_prepare(plan: *mut Plan) -> u32;
    pub fn cgrlist_plan_close(plan: *mut Plan);
    pub fn cgrlist_plan_add_contact(plan: *mut Plan, from: u64, to: u64, start: u64, end: u64, rate: u64, number: *mut u32) -> u32;
    pub fn cgrlist_plan_add_range(plan: *mut Plan, one: u64, other: u64, start: u64, end: u64, light: u32) -> u32;
    pub fn cgrlist_plan_delete_contact(plan: *mut Plan, from: u64, to: u64, start: u64, number: *mut u32) -> u32;
    pub fn cgrlist_plan_delete_range(plan: *mut Plan, one: u64, other: u64, start: u64) -> u32;
    pub fn cgrlist_plan_delete_number(plan: *mut Plan, number: u32) -> u32;
    pub fn cgrlist_plan_add_contacts(plan: *mut Plan, contacts: *const crate::NewContact, count: usize, place: *mut usize) -> u32;
    pub fn cgrlist_plan_add_ranges(plan: *mut Plan, ranges: *const crate::Range, count: usize, place: *mut usize) -> u32;
    pub fn cgrlist_plan_renumber(plan: *const Plan, second: u64, copy: *mut *mut Plan, numbers: *mut u32, room: usize) -> u32;
    pub fn cgrlist_plan_greatest(plan: *const Plan, number: *mut u32) -> u32;
    pub fn cgrlist_plan_nodes(plan: *const Plan, nodes: *mut u64, room: usize, count: *mut usize) -> u32;
    pub fn cgrlist_plan_text(plan: *const Plan, text: *mut u8, room: usize, bytes: *mut usize) -> u32;
    pub fn cgrlist_plan_canonical(plan: *const Plan, text: *mut u8, room: usize, bytes: *mut usize) -> u32;
    pub fn cgrlist_plan_counts(plan: *const Plan, counts: *mut crate::Counts) -> u32;
    pub fn cgrlist_plan_digest(plan: *const Plan, digest: *mut u8) -> u32;
    pub fn cgrlist_plan_contact(plan: *const Plan, number: u32, contact: *mut Contact) -> u32;
    pub fn cgrlist_plan_contact_at(plan: *const Plan, place: usize, contact: *mut Contact) -> u32;
    pub fn cgrlist_plan_range_at(plan: *const Plan, place: usize, range: *mut crate::Range) -> u32;
    pub fn cgrlist_best(plan: *const Plan, request: *const Request, route: *mut Route, contacts: *mut u32, contacts_room: usize) -> u32;
    pub fn cgrlist_best_each(plan: *const Plan, request: *const Request, to: *const u64, count: usize, reaches: *mut crate::Reach) -> u32;
    pub fn cgrlist_first(
        plan: *const Plan, request: *const Request, count: u32, routes: *mut Route, routes_room: usize, contacts: *mut u32,
        contacts_room: usize, page: *mut Page,
    ) -> u32;
    pub fn cgrlist_follow(plan: *const Plan, request: *const Request, contacts: *const u32, count: usize, outcome: *mut Outcome) -> u32;
    pub fn cgrlist_hops(
        plan: *const Plan, request: *const Request, contacts: *const u32, count: usize, hops: *mut crate::Hop, hops_room: usize,
        hops_count: *mut usize,
    ) -> u32;
    pub fn cgrlist_verify(plan: *const Plan, text: *const u8, bytes: usize) -> u32;
    pub fn cgrlist_listing_open(plan: *const Plan, request: *const Request, listing: *mut *mut Listing) -> u32;
    pub fn cgrlist_listing_load(plan: *const Plan, text: *const u8, bytes: usize, listing: *mut *mut Listing, line: *mut u64) -> u32;
    pub fn cgrlist_listing_next(
        listing: *mut Listing, count: u32, routes: *mut Route, routes_room: usize, contacts: *mut u32, contacts_room: usize,
        page: *mut Page,
    ) -> u32;
    pub fn cgrlist_listing_back(listing: *mut Listing) -> u32;
    pub fn cgrlist_listing_place(listing: *mut Listing, place: *mut crate::Place) -> u32;
    pub fn cgrlist_listing_text(listing: *mut Listing, text: *mut u8, room: usize, bytes: *mut usize) -> u32;
    pub fn cgrlist_listing_close(listing: *mut Listing);
    pub safe fn cgrlist_status_name(status: u32) -> *const c_char;
    pub safe fn cgrlist_fault_name(fault: u32) -> *const c_char;
    pub safe fn cgrlist_abi() -> u32;
}
