//! Every route by going on with every contact, then one sort by delivery, hops and numbers. For the test.

use crate::plan::{Plan, NO_LIGHT};

pub struct Limits<'a> {
    pub max_hops: usize,
    pub avoided: &'a [u64],
}

/// A delivery, and contact numbers less one.
pub type Route = (u64, Vec<u32>);

struct Walk<'a> {
    plan: &'a Plan,
    goal: u32,
    max_hops: usize,
    seen: Vec<bool>,
    numbers: Vec<u32>,
    routes: Vec<Route>,
}

impl Walk<'_> {
    fn go_on(&mut self, node: u32, at: u64) {
        if node == self.goal {
            self.routes.push((at, self.numbers.clone()));
            return;
        }
        if self.numbers.len() == self.max_hops {
            return;
        }
        for (number, contact) in self.plan.contacts.iter().enumerate() {
            let sent = at.max(contact.start);
            let leads_on = contact.from == node && !self.seen[contact.to as usize];
            if !leads_on || contact.cost == NO_LIGHT || sent >= contact.end {
                continue;
            }
            self.seen[contact.to as usize] = true;
            self.numbers.push(number as u32);
            self.go_on(contact.to, sent + contact.cost as u64);
            self.numbers.pop();
            self.seen[contact.to as usize] = false;
        }
    }
}

pub fn all_routes(plan: &Plan, from: u64, to: u64, at: u64, limits: &Limits) -> Vec<Route> {
    let (Some(source), Some(goal)) = (plan.node(from), plan.node(to)) else {
        return Vec::new();
    };
    let mut seen = vec![false; plan.nodes.len()];
    for node in limits.avoided.iter().filter_map(|&node| plan.node(node)) {
        seen[node as usize] = true;
    }
    seen[source as usize] = true;
    let max_hops = limits.max_hops;
    let mut walk = Walk { plan, goal, max_hops, seen, numbers: Vec::new(), routes: Vec::new() };
    walk.go_on(source, at);
    walk.routes.sort_by(|a, b| (a.0, a.1.len(), &a.1).cmp(&(b.0, b.1.len(), &b.1)));
    walk.routes
}
