//! Answers what `cgrlist first` answers, with the same report, as fast as a native program can. It keeps no session,
//! refuses few bad plans, and proves nothing: it is the yardstick of the figures.

use std::io::Write;
use yardstick::{partition, plan, report, search, words};

fn main() {
    let asked = words::read();
    let text = plan::read_file(&asked.plan).unwrap_or_else(|_| words::fail("cannot open the plan", 5));
    let plan = plan::read_plan(text, asked.margin_ppm)
        .unwrap_or_else(|(line, kind)| words::fail(&format!("plan line {line}: {kind}"), 3));
    let mut found = partition::Found::default();
    if let (Some(from), Some(to)) = (plan.node(asked.from), plan.node(asked.to)) {
        let avoided: Vec<u32> = asked.avoided.iter().filter_map(|&node| plan.node(node)).collect();
        if let Some(mut finder) = search::Finder::new(&plan, from, to, asked.at, &avoided) {
            found = partition::best_routes(&plan, &mut finder, from, asked.at, asked.count, asked.max_hops);
        }
    }
    let text = report::report(&plan, found.routes(), found.more);
    let status = if std::io::stdout().write_all(&text).is_ok() { 0 } else { 5 };
    std::process::exit(status) // without giving the memory back
}
