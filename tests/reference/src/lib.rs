//! A plain reading of docs/RULES.md in Rust, with none of the proved code: a table as a list of routes that every call walks through.
//! The expected output of the programs is held against it.

pub mod nodes;
pub mod stacks;

/// An address of up to 128 bits, left-aligned.
pub type Bits = u128;

/// The first `len` bits, zeros after.
pub fn cut(bits: Bits, len: u32) -> Bits {
    if len == 0 {
        0
    } else {
        bits >> (128 - len) << (128 - len)
    }
}

#[derive(Clone, Copy, PartialEq, Eq, Debug)]
pub struct Prefix {
    pub bits: Bits,
    pub len: u32,
}

/// A prefix of the first `len` bits, or the refusal's number.
pub fn prefix(width: u32, bits: Bits, len: u32) -> Result<Prefix, u32> {
    if len > width {
        Err(12)
    } else if cut(bits, len) != bits {
        Err(13)
    } else {
        Ok(Prefix { bits, len })
    }
}

#[derive(Clone, Copy)]
pub enum Call {
    Announce(u32, Prefix, Bits),
    Withdraw(u32, Prefix),
    Fetch(u32, Prefix),
    Lookup(Bits, u32),
}

#[derive(Clone, Copy, PartialEq, Eq, Debug)]
pub enum Reply {
    Done,
    Holds(Option<Bits>),
    Found(Option<(u32, Bits)>),
    Refused(u32),
}

/// A table of one plane, visible as it is, with room for so many routes.
pub struct Table {
    pub width: u32,
    pub rows: usize,
    pub routes: Vec<(Prefix, Bits)>,
}

impl Table {
    pub fn call(&mut self, call: Call) -> Reply {
        match call {
            Call::Announce(plane, ..) | Call::Withdraw(plane, ..) | Call::Fetch(plane, ..) if plane != 0 => Reply::Refused(6),
            Call::Announce(_, p, hop) => {
                let rest: Vec<_> = self.routes.iter().copied().filter(|r| r.0 != p).collect();
                if rest.len() + 1 > self.rows.min(65535) {
                    return Reply::Refused(15);
                }
                self.routes = rest;
                self.routes.push((p, hop));
                Reply::Done
            }
            Call::Withdraw(_, p) => {
                if !self.routes.iter().any(|r| r.0 == p) {
                    return Reply::Refused(14);
                }
                self.routes.retain(|r| r.0 != p);
                Reply::Done
            }
            Call::Fetch(_, p) => Reply::Holds(self.routes.iter().find(|r| r.0 == p).map(|r| r.1)),
            Call::Lookup(_, bound) if bound > self.width => Reply::Refused(12),
            Call::Lookup(address, bound) => Reply::Found(
                self.routes
                    .iter()
                    .filter(|r| r.0.len <= bound && cut(address, r.0.len) == r.0.bits)
                    .max_by_key(|r| r.0.len)
                    .map(|r| (r.0.len, r.1)),
            ),
        }
    }

    /// The routes by address, then by length.
    pub fn sorted(&self) -> Vec<(Prefix, Bits)> {
        let mut all = self.routes.clone();
        all.sort_by_key(|r| (r.0.bits, r.0.len));
        all
    }
}

/// Four decimal numbers, or eight groups of four hexadecimal digits.
pub fn text(width: u32, bits: Bits) -> String {
    if width == 32 {
        let a = (bits >> 96) as u32;
        format!("{}.{}.{}.{}", a >> 24, a >> 16 & 255, a >> 8 & 255, a & 255)
    } else {
        (0..8).map(|i| format!("{:04x}", (bits >> (112 - 16 * i)) as u16)).collect::<Vec<_>>().join(":")
    }
}
