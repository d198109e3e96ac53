//! Stacks of layers by their rules: the reply to a call comes from planes, views and room alone; what a call leaves in the caches comes
//! from the slot rule and from what each layer sends down.

use crate::{cut, Bits, Call, Prefix, Reply, Table};

pub type Answer = Option<(u32, Bits)>;

#[derive(Clone, Copy)]
pub struct Rule {
    pub permit: bool,
    pub prefix: Prefix,
    pub ge: u32,
    pub le: u32,
}

pub enum Stack {
    List(Table),
    Cache { slots: Vec<Option<(Bits, Answer)>>, below: Box<Stack> },
    Filter { rules: Vec<Rule>, below: Box<Stack> },
    FallThrough { upper: Box<Stack>, lower: Box<Stack> },
}

pub fn list(width: u32, rows: usize) -> Stack {
    Stack::List(Table { width, rows, routes: vec![] })
}

pub fn cached(count: usize, below: Stack) -> Stack {
    Stack::Cache { slots: vec![None; count.min(4096)], below: Box::new(below) }
}

pub fn filtered(rules: Vec<Rule>, below: Stack) -> Stack {
    Stack::Filter { rules, below: Box::new(below) }
}

pub fn falling(upper: Stack, lower: Stack) -> Stack {
    Stack::FallThrough { upper: Box::new(upper), lower: Box::new(lower) }
}

/// q is at or beneath p.
fn at_or_beneath(p: Prefix, q: Prefix) -> bool {
    q.len >= p.len && cut(q.bits, p.len) == p.bits
}

/// The first rule that matches decides; none denies.
fn permits(rules: &[Rule], p: Prefix) -> bool {
    let first = rules.iter().find(|r| at_or_beneath(r.prefix, p) && r.ge <= p.len && p.len <= r.le);
    first.is_some_and(|r| r.permit)
}

fn longest(visible: &[(Prefix, Bits)], address: Bits, bound: u32) -> Answer {
    let covering = visible.iter().filter(|r| r.0.len <= bound && cut(address, r.0.len) == r.0.bits);
    covering.max_by_key(|r| r.0.len).map(|r| (r.0.len, r.1))
}

impl Stack {
    pub fn width(&self) -> u32 {
        match self {
            Stack::List(t) => t.width,
            Stack::Cache { below, .. } | Stack::Filter { below, .. } => below.width(),
            Stack::FallThrough { upper, .. } => upper.width(),
        }
    }

    pub fn planes(&self) -> u32 {
        match self {
            Stack::List(_) => 1,
            Stack::Cache { below, .. } | Stack::Filter { below, .. } => below.planes(),
            Stack::FallThrough { upper, lower } => upper.planes() + lower.planes(),
        }
    }

    /// The visible map.
    fn visible(&self) -> Vec<(Prefix, Bits)> {
        match self {
            Stack::List(t) => t.routes.clone(),
            Stack::Cache { below, .. } => below.visible(),
            Stack::Filter { rules, below } => below.visible().into_iter().filter(|r| permits(rules, r.0)).collect(),
            Stack::FallThrough { upper, lower } => {
                let above = upper.visible();
                let through = lower.visible().into_iter().filter(|r| !above.iter().any(|u| at_or_beneath(u.0, r.0)));
                above.iter().copied().chain(through).collect()
            }
        }
    }

    /// The table that has the plane.
    fn table(&mut self, plane: u32) -> Option<&mut Table> {
        match self {
            Stack::List(t) => (plane == 0).then_some(t),
            Stack::Cache { below, .. } | Stack::Filter { below, .. } => below.table(plane),
            Stack::FallThrough { upper, lower } => {
                let k = upper.planes();
                if plane < k {
                    upper.table(plane)
                } else {
                    lower.table(plane - k)
                }
            }
        }
    }

    /// The reply to a call, by the planes, the view and the room.
    fn reply(&mut self, call: Call) -> Reply {
        let (plane, act) = match call {
            Call::Announce(i, p, h) => (i, Call::Announce(0, p, h)),
            Call::Withdraw(i, p) => (i, Call::Withdraw(0, p)),
            Call::Fetch(i, p) => (i, Call::Fetch(0, p)),
            Call::Lookup(_, bound) if bound > self.width() => return Reply::Refused(12),
            Call::Lookup(address, bound) => return Reply::Found(longest(&self.visible(), address, bound)),
        };
        match self.table(plane) {
            None => Reply::Refused(6),
            Some(t) => Table { width: t.width, rows: t.rows, routes: t.routes.clone() }.call(act),
        }
    }

    /// What the call leaves of this layer and of those that it sends calls down to.
    fn reached(&mut self, call: Call) {
        let reply = self.reply(call);
        let width = self.width();
        match self {
            Stack::List(t) => {
                t.call(call);
            }
            Stack::Cache { slots, below } => {
                let place = |a: Bits| (a >> (128 - width)) as u16 as usize % slots.len();
                match call {
                    Call::Lookup(a, bound) if bound == width && !slots.is_empty() => {
                        let k = place(a);
                        if !slots[k].is_some_and(|e| e.0 == a) {
                            below.reached(call);
                        }
                        if let Reply::Found(answer) = reply {
                            slots[k] = Some((a, answer));
                        }
                    }
                    Call::Announce(_, p, _) | Call::Withdraw(_, p) => {
                        below.reached(call);
                        if reply == Reply::Done {
                            for slot in slots.iter_mut() {
                                if slot.is_some_and(|e| cut(e.0, p.len) == p.bits) {
                                    *slot = None;
                                }
                            }
                        }
                    }
                    _ => below.reached(call),
                }
            }
            Stack::Filter { rules, below } => match call {
                Call::Lookup(_, bound) if bound > width => {}
                Call::Lookup(a, mut bound) => loop {
                    below.reached(Call::Lookup(a, bound));
                    match longest(&below.visible(), a, bound) {
                        Some((n, _)) if n > 0 && !permits(rules, Prefix { bits: cut(a, n), len: n }) => bound = n - 1,
                        _ => break,
                    }
                },
                _ => below.reached(call),
            },
            Stack::FallThrough { upper, lower } => {
                let k = upper.planes();
                match call {
                    Call::Lookup(..) => {
                        let first = upper.reply(call);
                        upper.reached(call);
                        if first == Reply::Found(None) {
                            lower.reached(call);
                        }
                    }
                    Call::Announce(i, p, h) if i >= k => lower.reached(Call::Announce(i - k, p, h)),
                    Call::Withdraw(i, p) if i >= k => lower.reached(Call::Withdraw(i - k, p)),
                    Call::Fetch(i, p) if i >= k => lower.reached(Call::Fetch(i - k, p)),
                    _ => upper.reached(call),
                }
            }
        }
    }

    pub fn call(&mut self, call: Call) -> Reply {
        let reply = self.reply(call);
        self.reached(call);
        reply
    }

    /// The slots of each cache, from the top.
    pub fn caches(&self) -> Vec<&[Option<(Bits, Answer)>]> {
        match self {
            Stack::List(_) => vec![],
            Stack::Cache { slots, below } => [vec![slots.as_slice()], below.caches()].concat(),
            Stack::Filter { below, .. } => below.caches(),
            Stack::FallThrough { upper, lower } => [upper.caches(), lower.caches()].concat(),
        }
    }
}
