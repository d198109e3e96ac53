//! Random lists of calls over few prefixes that nest, part and come back.

use crate::Request;
use reference::{cut, Bits};

/// Numbers that follow from a seed.
pub struct Random(u64);

impl Random {
    pub fn new(seed: u64) -> Random {
        Random(seed.wrapping_mul(0x9e37_79b9_7f4a_7c15) | 1)
    }

    fn next(&mut self) -> u64 {
        self.0 ^= self.0 << 13;
        self.0 ^= self.0 >> 7;
        self.0 ^= self.0 << 17;
        self.0.wrapping_mul(0x2545_f491_4f6c_dd1d)
    }

    /// Below `n`.
    fn below(&mut self, n: u32) -> u32 {
        ((self.next() >> 32) * u64::from(n) >> 32) as u32
    }

    fn one_in(&mut self, n: u32) -> bool {
        self.below(n) == 0
    }

    fn of<T: Copy>(&mut self, all: &[T]) -> T {
        all[self.below(all.len() as u32) as usize]
    }

    fn bits(&mut self, width: u32) -> Bits {
        cut(Bits::from(self.next()) << 64 | Bits::from(self.next()), width)
    }
}

type Net = (Bits, u32);

fn bit(i: u32) -> Bits {
    1 << (127 - i)
}

/// A prefix that stands in some way to those there are.
fn related(random: &mut Random, width: u32, nets: &[Net]) -> Net {
    let (bits, len) = random.of(nets);
    match random.below(8) {
        // a little longer
        0 | 1 => {
            let more = (len + 1 + random.below(4)).min(width);
            (cut(bits | random.bits(width) & !cut(Bits::MAX, len), more), more)
        }
        // shorter
        2 => {
            let less = random.below(len + 1);
            (cut(bits, less), less)
        }
        // parting at one of its bits
        3 | 4 if len > 0 => (bits ^ bit(random.below(len)), len),
        5 if len > 0 => (bits ^ bit(len - 1), len),
        // where two part
        6 => {
            let other = random.of(nets);
            let both = (bits ^ other.0).leading_zeros().min(len).min(other.1);
            (cut(bits, both), both)
        }
        // a far one, the whole width among them
        _ => {
            let any = random.below(width + 1);
            let len = random.of(&[0, 1, any, width - 1, width]);
            (cut(random.bits(width), len), len)
        }
    }
}

fn family(random: &mut Random, width: u32) -> Vec<Net> {
    let len = random.below(width + 1);
    let mut nets = vec![(cut(random.bits(width), len), len)];
    for _ in 0..4 + random.below(20) {
        let net = related(random, width, &nets);
        nets.push(net);
    }
    nets
}

/// An address in or near one of the prefixes, and a bound.
fn lookup(random: &mut Random, width: u32, nets: &[Net]) -> Request {
    let (bits, len) = random.of(nets);
    let mut address = bits | random.bits(width) & !cut(Bits::MAX, len);
    if random.one_in(4) {
        address ^= bit(random.below(width));
    }
    let bound = match random.below(8) {
        0 => random.below(width + 1),
        1 => len,
        2 => len.saturating_sub(1),
        3 if random.one_in(4) => width + 1 + random.below(255 - width),
        _ => width,
    };
    Request::Lookup(address, bound as u8)
}

/// A list of calls. A few name an absent plane, a prefix that is too long or one with bits beyond its length.
pub fn requests(seed: u64, width: u32, count: usize) -> Vec<Request> {
    let mut random = Random::new(seed);
    let nets = family(&mut random, width);
    let mut list = Vec::new();
    for _ in 0..count {
        let (mut bits, mut len) = if random.one_in(16) { related(&mut random, width, &nets) } else { random.of(&nets) };
        let plane = if random.one_in(40) { random.of(&[1, 2, 256, 65535]) } else { 0 };
        match random.below(100) {
            0 => len = width + 1 + random.below(255 - width),
            1 if len < width => bits |= bit(len + random.below(width - len)),
            _ => {}
        }
        let hop = random.bits(width);
        let len = len as u8;
        list.push(match random.below(12) {
            0..=3 => Request::Announce(plane, bits, len, hop),
            4..=6 => Request::Withdraw(plane, bits, len),
            7 => Request::Fetch(plane, bits, len),
            _ => lookup(&mut random, width, &nets),
        });
    }
    // what is held in the end
    list.extend(nets.iter().map(|&(bits, len)| Request::Fetch(0, bits, len as u8)));
    list
}
