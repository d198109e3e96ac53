//! The proved tables through their C interface (crates/exports): calls and replies as bytes.

pub mod random;

use reference::{Bits, Reply};

// `heap` takes no bytes, so nothing is passed for it; a slice is a pointer and a length.
extern "C" {
    fn sorted_ipv4(rows: usize, calls: *const u8, calls_len: usize, out: *mut u8, out_len: usize) -> usize;
    fn sorted_ipv6(rows: usize, calls: *const u8, calls_len: usize, out: *mut u8, out_len: usize) -> usize;
    fn sorted_mac48(rows: usize, calls: *const u8, calls_len: usize, out: *mut u8, out_len: usize) -> usize;
    fn patricia_ipv4(nodes: usize, calls: *const u8, calls_len: usize, out: *mut u8, out_len: usize) -> usize;
    fn patricia_ipv6(nodes: usize, calls: *const u8, calls_len: usize, out: *mut u8, out_len: usize) -> usize;
    fn patricia_mac48(nodes: usize, calls: *const u8, calls_len: usize, out: *mut u8, out_len: usize) -> usize;
}

type Exported = unsafe extern "C" fn(usize, *const u8, usize, *mut u8, usize) -> usize;

/// An address kind, with its two tables.
#[derive(Clone, Copy)]
pub struct Kind {
    pub width: u32,
    sorted: Exported,
    patricia: Exported,
}

pub const IPV4: Kind = Kind { width: 32, sorted: sorted_ipv4, patricia: patricia_ipv4 };
pub const IPV6: Kind = Kind { width: 128, sorted: sorted_ipv6, patricia: patricia_ipv6 };
pub const MAC48: Kind = Kind { width: 48, sorted: sorted_mac48, patricia: patricia_mac48 };

/// A call before its prefix is checked: a prefix is bits and a length.
#[derive(Clone, Copy, PartialEq, Eq, Debug)]
pub enum Request {
    Announce(u16, Bits, u8, Bits),
    Withdraw(u16, Bits, u8),
    Fetch(u16, Bits, u8),
    Lookup(Bits, u8),
}

const REPLY: usize = 18;

impl Request {
    /// The call in 36 bytes.
    fn bytes(self) -> Vec<u8> {
        let (act, plane, bits, len, hop) = match self {
            Request::Announce(plane, bits, len, hop) => (0, plane, bits, len, hop),
            Request::Withdraw(plane, bits, len) => (1, plane, bits, len, 0),
            Request::Fetch(plane, bits, len) => (2, plane, bits, len, 0),
            Request::Lookup(bits, bound) => (3, 0, bits, bound, 0),
        };
        [&[act, len][..], &plane.to_be_bytes(), &bits.to_be_bytes(), &hop.to_be_bytes()].concat()
    }

    /// The reply in 18 bytes; both fetch and lookup may find nothing.
    fn reply(self, bytes: &[u8]) -> Reply {
        let hop = Bits::from_be_bytes(bytes[2..].try_into().unwrap());
        match (bytes[0], self) {
            (0, _) => Reply::Done,
            (1, Request::Fetch(..)) => Reply::Holds(None),
            (1, _) => Reply::Found(None),
            (2, _) => Reply::Holds(Some(hop)),
            (3, _) => Reply::Found(Some((u32::from(bytes[1]), hop))),
            (4, _) => Reply::Refused(u32::from(bytes[1])),
            (kind, _) => panic!("a reply of kind {kind}"),
        }
    }
}

fn replies(table: Exported, size: usize, requests: &[Request]) -> Vec<Reply> {
    let calls: Vec<u8> = requests.iter().flat_map(|r| r.bytes()).collect();
    let mut out = vec![0xff; requests.len() * REPLY];
    let written = unsafe { table(size, calls.as_ptr(), calls.len(), out.as_mut_ptr(), out.len()) };
    assert_eq!(written, out.len());
    requests.iter().zip(out.chunks(REPLY)).map(|(r, bytes)| r.reply(bytes)).collect()
}

impl Kind {
    /// The replies of a fresh sorted list of so many rows.
    pub fn sorted(&self, rows: usize, requests: &[Request]) -> Vec<Reply> {
        replies(self.sorted, rows, requests)
    }

    /// The replies of a fresh PATRICIA of so many nodes.
    pub fn patricia(&self, nodes: usize, requests: &[Request]) -> Vec<Reply> {
        replies(self.patricia, nodes, requests)
    }
}
