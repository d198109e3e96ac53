//! Routes and addresses that follow from a seed: lengths as in a table of the internet, prefixes crowded into blocks.

use crate::plain::Key;
use std::collections::BTreeSet;

pub struct Random(u64);

impl Random {
    pub fn new(seed: u64) -> Random {
        Random(seed.wrapping_mul(0x9e37_79b9_7f4a_7c15) | 1)
    }

    pub fn next(&mut self) -> u64 {
        self.0 ^= self.0 << 13;
        self.0 ^= self.0 >> 7;
        self.0 ^= self.0 << 17;
        self.0.wrapping_mul(0x2545_f491_4f6c_dd1d)
    }

    fn below(&mut self, n: usize) -> usize {
        ((self.next() >> 32) * n as u64 >> 32) as usize
    }
}

/// What the two kinds differ in: how often each length occurs (in thousandths), how long a block is, and random bits.
pub trait Sample: Key {
    const LENGTHS: &'static [(u8, usize)];
    const BLOCK: u8;
    /// bits after the first `len` of `self`
    fn random_after(self, len: u8, random: &mut Random) -> Self;
    fn block(random: &mut Random) -> Self;
    fn bytes(self) -> [u8; 16];
}

impl Sample for u32 {
    const LENGTHS: &'static [(u8, usize)] = &[
        (24, 590), (23, 100), (22, 110), (21, 50), (20, 45), (19, 30), (18, 15), (17, 15), (16, 30), (15, 4), (14, 4), (13, 3), (12, 2), (10, 1), (8, 1),
    ];
    const BLOCK: u8 = 14;

    fn random_after(self, len: u8, random: &mut Random) -> u32 {
        let bits = random.next() as u32;
        self.cut(len) | bits & !u32::MAX.cut(len)
    }

    fn block(random: &mut Random) -> u32 {
        ((1 + random.below(223)) as u32) << 24 | random.next() as u32 >> 8
    }

    fn bytes(self) -> [u8; 16] {
        (u128::from(self) << 96).to_be_bytes()
    }
}

impl Sample for u128 {
    const LENGTHS: &'static [(u8, usize)] =
        &[(48, 480), (32, 130), (44, 90), (40, 90), (36, 50), (46, 40), (42, 30), (47, 30), (29, 20), (45, 20), (64, 10), (56, 10)];
    const BLOCK: u8 = 29;

    fn random_after(self, len: u8, random: &mut Random) -> u128 {
        let bits = u128::from(random.next()) << 64 | u128::from(random.next());
        self.cut(len) | bits & !u128::MAX.cut(len)
    }

    fn block(random: &mut Random) -> u128 {
        let head = [0x2001, 0x2400, 0x2600, 0x2800, 0x2a00, 0x2c00][random.below(6)] + random.below(16) as u128;
        (head << 112).random_after(16, random)
    }

    fn bytes(self) -> [u8; 16] {
        self.to_be_bytes()
    }
}

#[derive(Clone, Copy)]
pub struct Route<K> {
    pub prefix: K,
    pub len: u8,
    pub hop: K,
}

fn length<K: Sample>(random: &mut Random) -> u8 {
    let mut at = random.below(1000);
    for &(len, count) in K::LENGTHS {
        if at < count {
            return len;
        }
        at -= count;
    }
    K::LENGTHS[0].0
}

/// So many routes with different prefixes, about ten to a block.
pub fn routes<K: Sample + Ord>(count: usize) -> Vec<Route<K>> {
    let mut random = Random::new(1);
    let blocks: Vec<K> = (0..count / 10 + 1).map(|_| K::block(&mut random)).collect();
    let hops: Vec<K> = (0..50).map(|_| K::block(&mut random)).collect();
    let mut seen = BTreeSet::new();
    let mut all = vec![];
    while all.len() < count {
        let len = length::<K>(&mut random);
        let block = blocks[random.below(blocks.len())];
        let prefix = block.random_after(K::BLOCK, &mut random).cut(len);
        if seen.insert((prefix, len)) {
            all.push(Route { prefix, len, hop: hops[random.below(hops.len())] });
        }
    }
    all
}

/// So many addresses: seven of eight beneath one of the routes, the others anywhere.
pub fn addresses<K: Sample>(routes: &[Route<K>], count: usize) -> Vec<K> {
    let mut random = Random::new(2);
    (0..count)
        .map(|i| {
            let route = routes[random.below(routes.len())];
            let len = if i % 8 == 7 { 0 } else { route.len };
            route.prefix.random_after(len, &mut random)
        })
        .collect()
}
