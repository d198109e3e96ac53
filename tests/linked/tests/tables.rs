//! The tables on random lists of calls, against each other and against the plain reading of the rules.
use linked::random::requests;
use linked::{Kind, Request, IPV4, IPV6, MAC48};
use reference::nodes::Pool;
use reference::{prefix, Bits, Call, Reply, Table};

/// The call of a request, or the number with which its prefix is refused.
fn call(width: u32, request: Request) -> Result<Call, u32> {
    let net = |bits: Bits, len: u8| prefix(width, bits, u32::from(len));
    Ok(match request {
        Request::Announce(plane, bits, len, hop) => Call::Announce(u32::from(plane), net(bits, len)?, hop),
        Request::Withdraw(plane, bits, len) => Call::Withdraw(u32::from(plane), net(bits, len)?),
        Request::Fetch(plane, bits, len) => Call::Fetch(u32::from(plane), net(bits, len)?),
        Request::Lookup(address, bound) => Call::Lookup(address, u32::from(bound)),
    })
}

/// What happened on the lists, so that a test can tell that it saw what it is for.
#[derive(Default)]
struct Seen {
    /// announcements refused for want of nodes
    full: usize,
    /// announcements that made a branch a route, all nodes being in use
    branch_routed: usize,
    /// withdrawals that left a branch
    left_branch: usize,
    /// withdrawals that freed two nodes
    freed_two: usize,
    /// lookups that found a route
    found: usize,
}

impl Seen {
    fn note(&mut self, nodes: usize, before: (usize, usize), after: (usize, usize), call: Call, reply: Reply) {
        match (call, reply) {
            (Call::Announce(..), Reply::Refused(15)) => self.full += 1,
            (Call::Announce(..), Reply::Done) if after.0 > before.0 && before.1 == nodes => self.branch_routed += 1,
            (Call::Withdraw(..), Reply::Done) if after.1 == before.1 => self.left_branch += 1,
            (Call::Withdraw(..), Reply::Done) if after.1 + 2 == before.1 => self.freed_two += 1,
            (Call::Lookup(..), Reply::Found(Some(_))) => self.found += 1,
            _ => {}
        }
    }
}

/// The replies of the plain reading: room by nodes.
fn by_nodes(width: u32, nodes: usize, list: &[Request], seen: &mut Seen) -> Vec<Reply> {
    let mut pool = Pool::new(width, nodes);
    let mut before = (0, 0);
    let mut replies = vec![];
    for &request in list {
        replies.push(match call(width, request) {
            Err(number) => Reply::Refused(number),
            Ok(call) => {
                let reply = pool.call(call);
                let after = if reply == Reply::Done { (pool.routes.len(), pool.used()) } else { before };
                seen.note(nodes, before, after, call, reply);
                before = after;
                reply
            }
        });
    }
    replies
}

/// The replies of the plain reading: room by rows.
fn by_rows(width: u32, rows: usize, list: &[Request]) -> Vec<Reply> {
    let mut table = Table { width, rows, routes: vec![] };
    let reply = |&request| call(width, request).map_or_else(Reply::Refused, |call| table.call(call));
    list.iter().map(reply).collect()
}

fn same(what: &str, seed: u64, list: &[Request], replies: &[Reply], due: &[Reply]) {
    for (i, request) in list.iter().enumerate() {
        assert_eq!(replies[i], due[i], "{what}, seed {seed}, call {i}: {request:?}");
    }
}

const SIZES: [usize; 7] = [0, 1, 2, 3, 5, 8, 16];

fn compare(kind: Kind) {
    let mut seen = Seen::default();
    for seed in 0..2800 {
        let size = SIZES[seed as usize % SIZES.len()];
        let list = requests(seed, kind.width, 150);
        let replies = kind.patricia(size, &list);
        same("PATRICIA by the rules", seed, &list, &replies, &by_nodes(kind.width, size, &list, &mut seen));
        same("sorted list by the rules", seed, &list, &kind.sorted(size, &list), &by_rows(kind.width, size, &list));
        against_sorted(kind, seed, &list, &replies);
    }
    assert!(seen.full > 1000 && seen.branch_routed > 100 && seen.left_branch > 1000 && seen.freed_two > 1000 && seen.found > 1000);
}

/// A sorted list that has room for all gives the same replies, once the announcements are left out that found no node.
fn against_sorted(kind: Kind, seed: u64, list: &[Request], replies: &[Reply]) {
    let taken = list.iter().zip(replies).filter(|(_, reply)| **reply != Reply::Refused(15));
    let (list, replies): (Vec<Request>, Vec<Reply>) = taken.map(|(&request, &reply)| (request, reply)).unzip();
    same("PATRICIA by the sorted list", seed, &list, &replies, &kind.sorted(list.len(), &list));
}

#[test]
fn ipv4_tables() {
    compare(IPV4);
}

#[test]
fn ipv6_tables() {
    compare(IPV6);
}

#[test]
fn mac48_tables() {
    compare(MAC48);
}
