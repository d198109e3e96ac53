//! What the tour program prints, worked out from the rules.
use reference::nodes::Pool;
use reference::stacks::*;
use reference::*;

/// The prefixes and addresses of one kind, as the program has them.
struct Samples {
    name: &'static str,
    width: u32,
    wide: (Bits, u32),
    narrow: (Bits, u32),
    inside: Bits,
    outside: Bits,
    first: Bits,
    second: Bits,
}

fn dotted(a: u128, b: u128, c: u128, d: u128) -> Bits {
    (a << 24 | b << 16 | c << 8 | d) << 96
}

fn show(width: u32, call: Call, reply: Reply) -> String {
    let net = |p: Prefix| format!("{}/{}", text(width, p.bits), p.len);
    let asked = match call {
        Call::Announce(i, p, h) => format!("announce {} via {} on plane {i}", net(p), text(width, h)),
        Call::Withdraw(i, p) => format!("withdraw {} on plane {i}", net(p)),
        Call::Fetch(i, p) => format!("fetch {} on plane {i}", net(p)),
        Call::Lookup(a, b) => format!("lookup {} at bound {b}", text(width, a)),
    };
    let told = match reply {
        Reply::Done => "done".to_string(),
        Reply::Holds(Some(h)) => text(width, h),
        Reply::Found(Some((n, h))) => format!("length {n} via {}", text(width, h)),
        Reply::Holds(None) | Reply::Found(None) => "none".to_string(),
        Reply::Refused(n) => format!("refused {n}"),
    };
    format!("{asked}: {told}\n")
}

/// The calls on one table of three routes.
fn calls(at: &Samples) -> Vec<Call> {
    let w = at.width;
    let net = |(bits, len)| prefix(w, bits, len).unwrap();
    let (all, wide, narrow, host) = (net((0, 0)), net(at.wide), net(at.narrow), net((at.inside, w)));
    vec![
        Call::Lookup(at.inside, w),
        Call::Announce(0, wide, at.first),
        Call::Announce(0, narrow, at.second),
        Call::Lookup(at.inside, w),
        Call::Lookup(at.inside, narrow.len - 1),
        Call::Lookup(at.inside, 0),
        Call::Announce(0, all, at.first),
        Call::Lookup(at.inside, 0),
        Call::Lookup(at.inside, w + 1),
        Call::Lookup(at.outside, w),
        Call::Announce(0, host, at.second),
        Call::Announce(0, narrow, at.first),
        Call::Fetch(0, narrow),
        Call::Fetch(0, host),
        Call::Announce(1, host, at.second),
        Call::Withdraw(0, host),
        Call::Withdraw(0, wide),
        Call::Announce(0, host, at.second),
        Call::Lookup(at.inside, w),
        Call::Fetch(0, wide),
    ]
}

fn tour(at: &Samples) -> String {
    let w = at.width;
    let mut out = format!("{}\n", at.name);
    for len in [w + 1, 8] {
        let number = prefix(w, at.inside, len).unwrap_err();
        out += &format!("prefix {}/{len}: refused {number}\n", text(w, at.inside));
    }
    let mut table = Table { width: w, rows: 3, routes: vec![] };
    for call in calls(at) {
        let reply = table.call(call);
        out += &show(w, call, reply);
    }
    out += "table\n";
    for (p, hop) in table.sorted() {
        out += &format!("{}/{} via {}\n", text(w, p.bits), p.len, text(w, hop));
    }
    out
}

/// The same calls on a table of three nodes.
fn trie_tour(at: &Samples) -> String {
    let mut out = format!("{}, PATRICIA\n", at.name);
    let mut pool = Pool::new(at.width, 3);
    for call in calls(at) {
        let reply = pool.call(call);
        out += &show(at.width, call, reply);
    }
    out + &format!("nodes in use: {}\n", pool.used())
}

/// The calls on one stack of two planes, with the slots of its caches after each.
fn walk(name: &str, at: &Samples, mut stack: Stack) -> String {
    let w = at.width;
    let net = |(bits, len)| prefix(w, bits, len).unwrap();
    let (all, wide, narrow, host) = (net((0, 0)), net(at.wide), net(at.narrow), net((at.inside, w)));
    let mut out = format!("{}, {name}\n", at.name);
    for call in [
        Call::Announce(0, wide, at.first),
        Call::Announce(0, narrow, at.second),
        Call::Announce(1, narrow, at.second),
        Call::Announce(1, all, at.second),
        Call::Lookup(at.inside, w),
        Call::Lookup(at.inside, w),
        Call::Lookup(at.outside, w),
        Call::Lookup(at.inside, 4),
        Call::Withdraw(1, wide),
        Call::Withdraw(0, wide),
        Call::Lookup(at.inside, w),
        Call::Fetch(0, narrow),
        Call::Announce(2, host, at.first),
        Call::Lookup(at.inside, w + 1),
    ] {
        let reply = stack.call(call);
        out += &show(w, call, reply);
        for slots in stack.caches() {
            out += "  slots";
            for (k, slot) in slots.iter().enumerate() {
                match slot {
                    Some((a, Some((n, h)))) => out += &format!(" [{k}] {} length {n} via {}", text(w, *a), text(w, *h)),
                    Some((a, None)) => out += &format!(" [{k}] {} none", text(w, *a)),
                    None => {}
                }
            }
            out += "\n";
        }
    }
    out
}

/// Denies what is beneath the wide prefix and as long as the narrow one, and permits all else.
fn rules(at: &Samples) -> Vec<Rule> {
    let net = |(bits, len)| prefix(at.width, bits, len).unwrap();
    vec![
        Rule { permit: false, prefix: net(at.wide), ge: at.narrow.1, le: at.width },
        Rule { permit: true, prefix: net((0, 0)), ge: 0, le: at.width },
    ]
}

fn stacks(at: &Samples) -> String {
    let three = || list(at.width, 3);
    let top = cached(4, falling(filtered(rules(at), three()), three()));
    let middle = filtered(rules(at), cached(4, falling(three(), three())));
    let below = falling(cached(4, filtered(rules(at), three())), cached(4, three()));
    walk("a cache over a fall-through from a filtered list to a list", at, top)
        + &walk("a filter over a cache over a fall-through from list to list", at, middle)
        + &walk("a fall-through from a cached filtered list to a cached list", at, below)
}

/// The upper table has three nodes; its routes lie one beneath the other, so that they take as many nodes as rows.
fn trie_stack(at: &Samples) -> String {
    let three = || list(at.width, 3);
    let stack = cached(4, falling(filtered(rules(at), three()), three()));
    walk("a cache over a fall-through from a filtered PATRICIA table to a list", at, stack)
}

fn ipv4() -> Samples {
    Samples {
        name: "IPv4",
        width: 32,
        wide: (dotted(10, 0, 0, 0), 8),
        narrow: (dotted(10, 1, 0, 0), 16),
        inside: dotted(10, 1, 2, 3),
        outside: dotted(11, 0, 0, 1),
        first: dotted(192, 0, 2, 1),
        second: dotted(192, 0, 2, 2),
    }
}

fn ipv6() -> Samples {
    Samples {
        name: "IPv6",
        width: 128,
        wide: (0x2001_0db8 << 96, 32),
        narrow: (0x2001_0db8_0001 << 80, 48),
        inside: 0x2001_0db8_0001 << 80 | 9,
        outside: 0x2001_0db9 << 96 | 1,
        first: 0xfe80 << 112 | 1,
        second: 0xfe80 << 112 | 2,
    }
}

/// What the program is held to.
fn stored(program: &str) -> String {
    let path = format!("{}/../../crates/{program}/stdout", env!("CARGO_MANIFEST_DIR"));
    std::fs::read_to_string(path).unwrap()
}

#[test]
fn the_stored_output_follows_from_the_rules() {
    let (v4, v6) = (ipv4(), ipv6());
    assert_eq!(stored("tour"), tour(&v4) + &tour(&v6) + &stacks(&v4) + &stacks(&v6));
}

#[test]
fn the_stored_output_over_patricia_follows_from_the_rules() {
    let (v4, v6) = (ipv4(), ipv6());
    let expected = trie_tour(&v4) + &trie_tour(&v6) + &trie_stack(&v4) + &trie_stack(&v6);
    assert_eq!(stored("trie_tour"), expected);
}
