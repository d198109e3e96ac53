//! Instructions and time of the proved PATRICIA (crates/patricia through crates/exports) and of a plain Rust trie of the same design,
//! on the same routes and addresses.
//!
//! `bench` prints the report; `bench TRIE KIND ROUTES LOOKUPS CHURNS ANNOUNCES` does one job, whose instructions the report counts.

mod data;
mod plain;

use data::{addresses, routes, Route, Sample};
use plain::{Node, Trie};
use std::env;
use std::hint::black_box;
use std::process::Command;
use std::time::{Duration, Instant};

// `heap` takes no bytes, so nothing is passed for it; a slice is a pointer and a length.
extern "C" {
    fn patricia_ipv4_load(
        nodes: usize,
        routes: *const u8,
        routes_len: usize,
        held: usize,
        addresses: *const u8,
        addresses_len: usize,
        lookups: usize,
        churns: usize,
        announces: usize,
    ) -> u64;
    fn patricia_ipv6_load(
        nodes: usize,
        routes: *const u8,
        routes_len: usize,
        held: usize,
        addresses: *const u8,
        addresses_len: usize,
        lookups: usize,
        churns: usize,
        announces: usize,
    ) -> u64;
}

const NODES: usize = 65535;
const ADDRESSES: usize = 5000;
const SIZES: [usize; 3] = [500, 5000, 30000];

/// What is done with a table once it holds its first routes; the other routes are a tenth as many.
#[derive(Clone, Copy)]
struct Load {
    /// how often all addresses are looked up
    lookups: usize,
    /// how often the other routes are announced and withdrawn again
    churns: usize,
    /// how often the other routes are announced in the end
    announces: usize,
}

/// The inputs of one kind and size.
struct Input<K> {
    held: usize,
    routes: Vec<Route<K>>,
    addresses: Vec<K>,
}

impl<K: Sample + Ord> Input<K> {
    fn new(held: usize) -> Input<K> {
        let routes = routes(held + held / 10);
        let addresses = addresses(&routes[..held], ADDRESSES);
        Input { held, routes, addresses }
    }

    fn announce_all(trie: &mut Trie<K>, routes: &[Route<K>]) -> u64 {
        let mut accepted = 0u64;
        for route in routes {
            if trie.announce(0, route.prefix, route.len, route.hop).is_ok() {
                accepted += 1;
            }
        }
        accepted
    }

    fn withdraw_all(trie: &mut Trie<K>, routes: &[Route<K>]) -> u64 {
        let mut held = 0u64;
        for route in routes {
            if trie.withdraw(0, route.prefix, route.len).is_ok() {
                held += 1;
            }
        }
        held
    }

    fn lookup_all(trie: &Trie<K>, addresses: &[K]) -> u64 {
        let mut sum = 0u64;
        for &address in addresses {
            if let Ok(Some((len, hop))) = trie.lookup(address, K::WIDTH) {
                sum = sum.wrapping_add(u64::from(len)).wrapping_add(hop.high());
            }
        }
        sum
    }

    fn plain(&self, load: Load) -> u64 {
        let mut nodes = vec![Node::new(K::ZERO, 0, None); NODES];
        let mut trie = Trie::new(&mut nodes);
        let (first, others) = self.routes.split_at(self.held);
        let mut sum = Self::announce_all(&mut trie, first);
        for _ in 0..load.lookups {
            sum = sum.wrapping_add(Self::lookup_all(&trie, black_box(&self.addresses)));
        }
        for _ in 0..load.churns {
            sum = sum.wrapping_add(Self::announce_all(&mut trie, others));
            sum = sum.wrapping_add(Self::withdraw_all(&mut trie, others));
        }
        for _ in 0..load.announces {
            sum = sum.wrapping_add(Self::announce_all(&mut trie, others));
        }
        sum
    }

    fn proved(&self, load: Load) -> u64 {
        let announce = |r: &Route<K>| [&[0, r.len, 0, 0][..], &r.prefix.bytes(), &r.hop.bytes()].concat();
        let routes: Vec<u8> = self.routes.iter().flat_map(announce).collect();
        let addresses: Vec<u8> = self.addresses.iter().flat_map(|a| a.bytes()).collect();
        let run = if K::WIDTH == 32 { patricia_ipv4_load } else { patricia_ipv6_load };
        unsafe {
            run(
                NODES,
                routes.as_ptr(),
                routes.len(),
                self.held,
                addresses.as_ptr(),
                addresses.len(),
                load.lookups,
                load.churns,
                load.announces,
            )
        }
    }

    fn run(&self, trie: &str, load: Load) -> u64 {
        if trie == "proved" {
            self.proved(load)
        } else {
            self.plain(load)
        }
    }

    /// Nodes in use, and nodes on the way of an address, on average.
    fn shape(&self) -> (usize, f64) {
        let mut nodes = vec![Node::new(K::ZERO, 0, None); NODES];
        let mut trie = Trie::new(&mut nodes);
        Self::announce_all(&mut trie, &self.routes[..self.held]);
        let seen: usize = self.addresses.iter().map(|&a| trie.depth(a)).sum();
        (trie.used(), seen as f64 / self.addresses.len() as f64)
    }

    /// The shortest of several runs.
    fn time(&self, trie: &str, load: Load) -> Duration {
        let run = || {
            let from = Instant::now();
            black_box(self.run(trie, load));
            from.elapsed()
        };
        (0..7).map(|_| run()).min().unwrap()
    }

    /// Nanoseconds for each lookup, and for each pair of an announcement and a withdrawal.
    fn times(&self, trie: &str) -> (f64, f64) {
        let others = self.routes.len() - self.held;
        let (passes, churns) = (400, 300_000 / others);
        let none = self.time(trie, Load { lookups: 0, churns: 0, announces: 0 });
        let lookups = self.time(trie, Load { lookups: passes, churns: 0, announces: 0 }).saturating_sub(none);
        let pairs = self.time(trie, Load { lookups: 0, churns, announces: 0 }).saturating_sub(none);
        let each = |time: Duration, count: usize| time.as_nanos() as f64 / count as f64;
        (each(lookups, passes * ADDRESSES), each(pairs, churns * others))
    }

    /// Instructions for each lookup, announcement and withdrawal: each the difference of two runs.
    fn instructions(&self, trie: &str, kind: &str) -> [f64; 3] {
        let others = (self.routes.len() - self.held) as f64;
        let count = |lookups, churns, announces| counted(trie, kind, self.held, Load { lookups, churns, announces });
        let (once, twice) = (count(1, 0, 0), count(2, 0, 0));
        let (held, more, churned) = (count(0, 0, 0), count(0, 0, 1), count(0, 1, 0));
        [(twice - once) / ADDRESSES as f64, (more - held) / others, (churned - more) / others]
    }

    fn report(kind: &str, size: usize) {
        let input = Input::<K>::new(size);
        let job = Load { lookups: 1, churns: 1, announces: 1 };
        assert_eq!(input.proved(job), input.plain(job), "the two tries differ");
        let (nodes, depth) = input.shape();
        println!("{kind}, {size} routes, {nodes} nodes; {depth:.1} on the way of an address");
        let (proved, plain) = (input.instructions("proved", kind), input.instructions("plain", kind));
        for (i, name) in ["lookup", "announce", "withdraw"].iter().enumerate() {
            println!("  {name:9}{:9.1}{:9.1}  instructions, ratio {:.2}", proved[i], plain[i], proved[i] / plain[i]);
        }
        let (proved, plain) = (input.times("proved"), input.times("plain"));
        println!("  lookup   {:9.1}{:9.1}  ns", proved.0, plain.0);
        println!("  both     {:9.1}{:9.1}  ns, an announcement and a withdrawal", proved.1, plain.1);
    }
}

/// The instructions of one job under callgrind, this program's own included.
fn counted(trie: &str, kind: &str, routes: usize, load: Load) -> f64 {
    let program = env::current_exe().unwrap();
    let numbers = [routes, load.lookups, load.churns, load.announces].map(|n| n.to_string());
    let out = Command::new("valgrind")
        .args(["--tool=callgrind", "--callgrind-out-file=/dev/null"])
        .arg(program)
        .args([trie, kind])
        .args(numbers)
        .output()
        .expect("valgrind");
    let text = String::from_utf8_lossy(&out.stderr);
    let line = text.lines().find(|l| l.contains("Collected :")).unwrap_or_else(|| panic!("{text}"));
    line.split(':').nth(1).unwrap().trim().parse().unwrap()
}

fn main() {
    let words: Vec<String> = env::args().skip(1).collect();
    if words.is_empty() {
        println!("in each line first the proved trie, then the plain one");
        for size in SIZES {
            Input::<u32>::report("ipv4", size);
        }
        for size in SIZES {
            Input::<u128>::report("ipv6", size);
        }
        return;
    }
    let number = |i: usize| words[i].parse().unwrap();
    let load = Load { lookups: number(3), churns: number(4), announces: number(5) };
    let sum = match words[1].as_str() {
        "ipv4" => Input::<u32>::new(number(2)).run(&words[0], load),
        _ => Input::<u128>::new(number(2)).run(&words[0], load),
    };
    println!("{sum}");
}
