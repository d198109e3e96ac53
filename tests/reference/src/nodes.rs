//! A table whose room goes by nodes, read off the rules: a map of prefixes, and every branch counted by its definition.

use crate::{cut, Bits, Call, Prefix, Reply};
use std::collections::{BTreeMap, BTreeSet};

/// A prefix as bits and length.
type Key = (Bits, u32);

pub struct Pool {
    pub width: u32,
    pub nodes: usize,
    pub routes: BTreeMap<Key, Bits>,
}

fn key(p: Prefix) -> Key {
    (p.bits, p.len)
}

/// Bit `i`, the highest first.
fn bit(bits: Bits, i: u32) -> bool {
    bits >> (127 - i) & 1 == 1
}

/// q is longer than p, starts with p's bits, and its next bit is `side`.
fn beneath(p: Key, q: Key, side: bool) -> bool {
    q.1 > p.1 && cut(q.0, p.1) == p.0 && bit(q.0, p.1) == side
}

/// Not in the map, with a longer route beneath on either side.
fn is_branch(routes: &BTreeMap<Key, Bits>, p: Key) -> bool {
    let routed = |side| routes.keys().any(|&q| beneath(p, q, side));
    !routes.contains_key(&p) && routed(false) && routed(true)
}

/// How many branches a map has: only prefixes of its routes can be some.
pub fn branches(routes: &BTreeMap<Key, Bits>) -> usize {
    let starts: BTreeSet<Key> = routes.keys().flat_map(|&(bits, len)| (0..len).map(move |n| (cut(bits, n), n))).collect();
    starts.into_iter().filter(|&p| is_branch(routes, p)).count()
}

impl Pool {
    pub fn new(width: u32, nodes: usize) -> Pool {
        Pool { width, nodes, routes: BTreeMap::new() }
    }

    /// How many nodes the routes take.
    pub fn used(&self) -> usize {
        self.routes.len() + branches(&self.routes)
    }

    fn announce(&mut self, p: Prefix, hop: Bits) -> Reply {
        let mut with = self.routes.clone();
        with.insert(key(p), hop);
        if with.len() + branches(&with) > self.nodes.min(65535) {
            return Reply::Refused(15);
        }
        self.routes = with;
        Reply::Done
    }

    fn withdraw(&mut self, p: Prefix) -> Reply {
        match self.routes.remove(&key(p)) {
            Some(_) => Reply::Done,
            None => Reply::Refused(14),
        }
    }

    fn lookup(&self, address: Bits, bound: u32) -> Reply {
        let held = |n| self.routes.get(&(cut(address, n), n)).map(|&hop| (n, hop));
        Reply::Found((0..=bound).rev().find_map(held))
    }

    pub fn call(&mut self, call: Call) -> Reply {
        match call {
            Call::Announce(plane, ..) | Call::Withdraw(plane, ..) | Call::Fetch(plane, ..) if plane != 0 => Reply::Refused(6),
            Call::Lookup(_, bound) if bound > self.width => Reply::Refused(12),
            Call::Announce(_, p, hop) => self.announce(p, hop),
            Call::Withdraw(_, p) => self.withdraw(p),
            Call::Fetch(_, p) => Reply::Holds(self.routes.get(&key(p)).copied()),
            Call::Lookup(address, bound) => self.lookup(address, bound),
        }
    }
}
