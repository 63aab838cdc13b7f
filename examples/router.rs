//! Asks for the best route of a request over a contact plan, loses the route's first contact, and asks again.
//!
//!     rustc --edition 2024 -O router.rs -L FOLDER     with the folder of libcgrlist.so
//!     ./router relay.txt 31 1 1893458700              the last word is a second after 1970
//!
//! library/rust has a crate for the whole library.

use std::ffi::c_void;
use std::ptr::{null, null_mut};

#[repr(C)]
struct Request { from: u64, to: u64, at: u64, margin_ppm: u32, max_hops: u32, avoid: *const u64, avoids: usize }

#[repr(C)]
#[derive(Default)]
struct Route { delivery: u64, until: u64, entry: u64, first: usize, hops: usize }

#[repr(C)]
#[derive(Default)]
struct Contact { from: u64, to: u64, start: u64, end: u64, rate: u64, number: u32, light: u32, has_light: bool }

#[link(name = "cgrlist")]
unsafe extern "C" {
    fn cgrlist_plan_read(plan: *mut *mut c_void, text: *const u8, bytes: usize, line: *mut u64) -> u32;
    fn cgrlist_plan_close(plan: *mut c_void);
    fn cgrlist_plan_contact(plan: *mut c_void, number: u32, contact: *mut Contact) -> u32;
    fn cgrlist_plan_delete_contact(plan: *mut c_void, from: u64, to: u64, start: u64, number: *mut u32) -> u32;
    fn cgrlist_best(plan: *mut c_void, request: *const Request, route: *mut Route, contacts: *mut u32, room: usize) -> u32;
    safe fn cgrlist_abi() -> u32;
}

const NO: u32 = 1;
const ROOM: u32 = 2;

/// A plan, which is closed when it is dropped. The pointer keeps it on one thread.
struct Plan(*mut c_void);

impl Plan {
    /// Reads a plan's text, or returns the status and the bad line.
    fn read(text: &[u8]) -> Result<Plan, (u32, u64)> {
        let (mut plan, mut line) = (null_mut(), 0);
        match unsafe { cgrlist_plan_read(&mut plan, text.as_ptr(), text.len(), &mut line) } {
            0 => Ok(Plan(plan)),
            status => Err((status, line)),
        }
    }

    /// Returns the best route with its contacts; none if there is none. An error is a status.
    fn best(&self, request: &Request) -> Result<Option<(Route, Vec<u32>)>, u32> {
        let (mut route, mut contacts) = (Route::default(), vec![0; 64]);
        loop {
            match unsafe { cgrlist_best(self.0, request, &mut route, contacts.as_mut_ptr(), contacts.len()) } {
                0 => break,
                NO => return Ok(None),
                ROOM => contacts.resize(route.hops, 0),
                status => return Err(status),
            }
        }
        contacts.truncate(route.hops);
        Ok(Some((route, contacts)))
    }

    /// Takes a contact out of the plan: it is named by its nodes and its start.
    fn lose(&mut self, number: u32) -> Result<(), u32> {
        let mut it = Contact::default();
        match unsafe { cgrlist_plan_contact(self.0, number, &mut it) } {
            0 => {}
            status => return Err(status),
        }
        match unsafe { cgrlist_plan_delete_contact(self.0, it.from, it.to, it.start, null_mut()) } {
            0 => Ok(()),
            status => Err(status),
        }
    }
}

impl Drop for Plan {
    fn drop(&mut self) {
        unsafe { cgrlist_plan_close(self.0) }
    }
}

/// Prints the best route, and returns its first contact.
fn ask(plan: &mut Plan, request: &Request) -> Option<u32> {
    let Some((route, contacts)) = plan.best(request).expect("best") else {
        println!("no route");
        return None;
    };
    let numbers: Vec<String> = contacts.iter().map(u32::to_string).collect();
    println!("to node {} first, there at {}, over {}", route.entry, route.delivery, numbers.join(" "));
    contacts.first().copied()
}

fn main() {
    assert_eq!(cgrlist_abi(), 2, "this library has another interface");
    let words: Vec<String> = std::env::args().skip(1).collect();
    let number = |place: usize| words[place].parse().expect("a number");
    let mut plan = Plan::read(&std::fs::read(&words[0]).expect("a file")).expect("a plan");
    let request = Request { from: number(1), to: number(2), at: number(3), margin_ppm: 0, max_hops: 0, avoid: null(), avoids: 0 };
    if let Some(first) = ask(&mut plan, &request) {
        plan.lose(first).expect("a contact");
        println!("contact {first} is lost");
        ask(&mut plan, &request);
    }
}
