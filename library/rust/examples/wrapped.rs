//! Asks what tests/library/wrapped.cpp asks, and prints it in the same words. Its word: examples/relay.txt.

use cgrlist::{NewContact, Plan, Range, Request, Route};
use std::error::Error;

fn print(route: &Route) {
    let numbers: Vec<String> = route.contacts.iter().map(u32::to_string).collect();
    println!("{} {} {} {}", route.delivery, route.until, route.entry, numbers.join(" "));
}

fn main() -> Result<(), Box<dyn Error>> {
    assert_eq!(cgrlist::library_abi(), cgrlist::ABI);
    let text = std::fs::read(std::env::args().nth(1).ok_or("a plan is missing")?)?;
    let asked = Request::new(31, 1, 1893458700);
    let mut plan = Plan::read(&text)?;
    print(&plan.best(&asked)?.ok_or("no route")?);
    let mut listing = plan.list(&asked)?;
    listing.next(2)?.routes.iter().for_each(print);
    let first = plan.contact(plan.first(&asked, 1)?.routes[0].contacts[0])?.ok_or("no contact")?;
    let fault = plan.follow(&asked, &[4, 11])?.err().ok_or("no fault")?;
    println!("{} {}", plan.hops(&asked, &[4, 11])?.len(), fault.name());
    println!("{}", plan.delete_contact(first.from, first.to, first.start)?);
    print(&plan.best(&asked)?.ok_or("no route")?);
    print(&listing.next(9)?.routes[0]);
    println!("{}{}", u8::from(listing.back()?), listing.place()?.given);
    let copy = Plan::read(&plan.text()?)?;
    let (is_same, counts) = (copy.digest()? == plan.copy()?.digest()?, copy.counts()?);
    let (contacts, ranges, bytes) = (copy.contacts().count(), copy.ranges().count(), copy.canonical()?.len());
    println!("{} {} {contacts} {ranges} {} {bytes}", u8::from(is_same), counts.greatest, counts.nodes);
    let (mut renewed, numbers) = plan.renumber(1893480000)?;
    let reach = plan.best_each(&asked, &[1, 31, 0])?;
    let (to_1, statuses) = (reach[0], (reach[1].status, reach[2].status));
    println!(
        "{} {} {} {} {} {} {} {}",
        renewed.greatest()?, numbers[0], renewed.nodes()?.len(), to_1.delivery, to_1.entry, to_1.hops, statuses.0, statuses.1
    );
    renewed.add_contacts(&[NewContact { from: 1, to: 2, start: 3, end: 4, rate: 5 }, NewContact { from: 1, to: 2, start: 4, end: 5, rate: 5 }])?;
    renewed.add_ranges(&[Range { one: 1, other: 7001, start: 3, end: 4, light: 5 }])?;
    renewed.delete_number(1)?;
    println!("{} {}", renewed.counts()?.contacts, renewed.counts()?.ranges);
    println!("{}{}", u8::from(plan.verify(&plan.list(&asked)?.text()?)?), u8::from(plan.verify(&listing.text()?)?));
    let mut empty = Plan::new()?;
    println!("{} {}", empty.add_contact(1, 2, 3, 4, 5)?, u8::from(empty.best(&Request::new(1, 2, 3))?.is_some()));
    let bad = [NewContact { from: 7001, to: 7002, start: 3, end: 4, rate: 5 }, NewContact { from: 7001, to: 7002, start: 4, end: 4, rate: 5 }];
    for error in [plan.load(&listing.text()?).err(), plan.add_contacts(&bad).err(), Plan::read(b"a\n").err()].into_iter().flatten() {
        println!("{} {}", error.name(), error.line);
    }
    Ok(())
}
