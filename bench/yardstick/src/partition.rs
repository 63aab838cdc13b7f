//! The K best routes by Lawler's partition: one search for each new part.

use crate::plan::Plan;
use crate::search::{INF, NONE};
use std::cmp::Ordering;

/// The least route of a part.
pub trait PartFinder {
    /// Opens all nodes; then `shut` shuts the prefix's nodes one by one.
    fn open_all(&mut self);
    fn shut(&mut self, v: u32);
    /// The numbers that are shut out of the first hop: a list in `lists` (number, place of the
    /// rest), from its head; u32::MAX is empty.
    fn exclude(&mut self, lists: &[(u32, u32)], head: u32);
    /// Delivery of the least continuation from the prefix's end at the time; its numbers stand in
    /// `route`.  `lo`: a delivery that no route of the part can beat.
    fn best(&mut self, v0: u32, t0: u64, lo: u64, max_hops: usize) -> Option<u64>;
    fn route(&self) -> &[u32];
    /// Told of each delivery that was found.
    fn found(&mut self, d: u64);
}

#[derive(Default)]
pub struct Found {
    numbers: Vec<u32>,
    /// place of the first number, how many there are, delivery
    places: Vec<(u32, u32, u64)>,
    pub more: bool,
}

impl Found {
    /// The routes, each with its delivery and its contact numbers less one.
    pub fn routes(&self) -> impl Iterator<Item = (u64, &[u32])> {
        self.places.iter().map(|&(first, count, delivery)| {
            (delivery, &self.numbers[first as usize..(first + count) as usize])
        })
    }
}

/// A part that carries its least route.
struct Part {
    /// delivery, hops, the first four numbers
    key: u128,
    delivery: u64,
    off: u32,
    len: u32,
    plen: u32,
    excl: u32,
}

fn pack(delivery: u64, list: &[u32]) -> u128 {
    let mut k = ((delivery as u128) << 16) | list.len() as u128;
    for i in 0..4 {
        k = (k << 16) | list.get(i).map_or(0, |&c| c as u128 + 1);
    }
    k
}

struct Heap {
    heap: Vec<Part>,
}

impl Heap {
    #[inline]
    fn less(a: &Part, b: &Part, arena: &[u32]) -> bool {
        match a.key.cmp(&b.key) {
            Ordering::Less => true,
            Ordering::Greater => false,
            Ordering::Equal => {
                arena[a.off as usize..(a.off + a.len) as usize]
                    < arena[b.off as usize..(b.off + b.len) as usize]
            }
        }
    }
    fn push(&mut self, p: Part, arena: &[u32]) {
        self.heap.push(p);
        let mut i = self.heap.len() - 1;
        while i > 0 {
            let up = (i - 1) / 2;
            if Self::less(&self.heap[i], &self.heap[up], arena) {
                self.heap.swap(i, up);
                i = up;
            } else {
                break;
            }
        }
    }
    fn pop(&mut self, arena: &[u32]) -> Option<Part> {
        if self.heap.is_empty() {
            return None;
        }
        let p = self.heap.swap_remove(0);
        let n = self.heap.len();
        let mut i = 0;
        loop {
            let l = 2 * i + 1;
            if l >= n {
                break;
            }
            let r = l + 1;
            let m = if r < n && Self::less(&self.heap[r], &self.heap[l], arena) { r } else { l };
            if Self::less(&self.heap[m], &self.heap[i], arena) {
                self.heap.swap(m, i);
                i = m;
            } else {
                break;
            }
        }
        Some(p)
    }
}

pub fn best_routes(
    plan: &Plan,
    finder: &mut impl PartFinder,
    src: u32,
    at: u64,
    count: usize,
    max_hops: usize,
) -> Found {
    let mut arena: Vec<u32> = Vec::with_capacity(1 << 16);
    let mut heap = Heap { heap: Vec::with_capacity(1024) };
    // exclusions of parts as lists that share their tails: number, rest
    let mut excl: Vec<(u32, u32)> = Vec::with_capacity(1024);
    let mut found = Found::default();
    finder.open_all();
    finder.shut(src);
    finder.exclude(&excl, NONE);
    if let Some(d) = finder.best(src, at, 0, max_hops) {
        finder.found(d);
        let off = arena.len() as u32;
        arena.extend_from_slice(finder.route());
        let len = finder.route().len() as u32;
        heap.push(Part { key: pack(d, finder.route()), delivery: d, off, len, plen: 0, excl: NONE }, &arena);
    }
    while found.places.len() < count {
        let Some(p) = heap.pop(&arena) else { break };
        found.places.push((p.off, p.len, p.delivery));
        if found.places.len() == count && !heap.heap.is_empty() {
            break;
        }
        // divide
        finder.open_all();
        finder.shut(src);
        let mut v = src;
        let mut t = at;
        for i in 0..p.len as usize {
            let c = arena[p.off as usize + i];
            if i >= p.plen as usize {
                let chain = excl.len() as u32;
                excl.push((c, if i == p.plen as usize { p.excl } else { NONE }));
                finder.exclude(&excl, chain);
                if let Some(d) = finder.best(v, t, p.delivery, max_hops - i) {
                    debug_assert!(d != INF);
                    finder.found(d);
                    let off = arena.len() as u32;
                    let po = p.off as usize;
                    arena.extend_from_within(po..po + i);
                    arena.extend_from_slice(finder.route());
                    let len = (i + finder.route().len()) as u32;
                    let key = pack(d, &arena[off as usize..]);
                    heap.push(Part { key, delivery: d, off, len, plen: i as u32, excl: chain }, &arena);
                }
            }
            let k = &plan.contacts[c as usize];
            t = t.max(k.start) + k.cost as u64;
            v = k.to;
            finder.shut(v);
        }
    }
    found.more = !heap.heap.is_empty();
    found.numbers = arena;
    found
}
