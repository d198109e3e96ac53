//! The worked node counts through the code: a pool of just so many nodes takes the routes, and one node fewer does not.
use linked::{Request, IPV4};
use reference::{Bits, Reply};

const HOP: Bits = 0xc000_0201 << 96;
const TEN: (Bits, u8) = (0x0a00_0000 << 96, 8);
const LOWER_HALF: (Bits, u8) = (0x0a00_0000 << 96, 9);
const UPPER_HALF: (Bits, u8) = (0x0a80_0000 << 96, 9);
const FIRST: (Bits, u8) = (0x0a00_0000 << 96, 16);
const SECOND: (Bits, u8) = (0x0a01_0000 << 96, 16);
const ELSEWHERE: (Bits, u8) = (0x0b00_0000 << 96, 8);

fn announced(net: (Bits, u8)) -> Request {
    Request::Announce(0, net.0, net.1, HOP)
}

/// The replies to announcements of these prefixes on a fresh pool.
fn replies(nodes: usize, nets: &[(Bits, u8)]) -> Vec<Reply> {
    IPV4.patricia(nodes, &nets.iter().copied().map(announced).collect::<Vec<_>>())
}

/// So many nodes take the prefixes, and with one fewer the last is refused.
fn takes(nodes: usize, nets: &[(Bits, u8)]) {
    assert!(replies(nodes, nets).iter().all(|&reply| reply == Reply::Done));
    let fewer = replies(nodes - 1, nets);
    assert_eq!(fewer.last(), Some(&Reply::Refused(15)));
    assert!(fewer[..nets.len() - 1].iter().all(|&reply| reply == Reply::Done));
}

#[test]
fn routes_and_branches_take_one_node_each() {
    takes(3, &[FIRST, SECOND]);
    takes(2, &[TEN, SECOND]);
    takes(3, &[TEN, LOWER_HALF, UPPER_HALF]);
    takes(3, &[LOWER_HALF, UPPER_HALF]);
}

#[test]
fn a_withdrawn_route_stays_as_a_branch() {
    let mut list: Vec<Request> = [TEN, LOWER_HALF, UPPER_HALF].map(announced).to_vec();
    list.push(Request::Withdraw(0, TEN.0, TEN.1));
    list.push(announced(ELSEWHERE));
    list.push(announced(TEN));
    list.push(announced(ELSEWHERE));
    let due = [Reply::Done, Reply::Done, Reply::Done, Reply::Done, Reply::Refused(15), Reply::Done, Reply::Refused(15)];
    assert_eq!(IPV4.patricia(3, &list), due);
}
