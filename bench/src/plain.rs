//! A path-compressed trie of the same design as the proved one, in plain Rust: a dense pool of nodes in a slice, the root in slot 0,
//! 16-bit links; a freed slot takes the node of the last one. Prefixes are compared at routes only: beneath a branch that does not cover an
//! address no route does.

pub const NIL: u16 = u16::MAX;

/// An address, or the bits of a prefix.
pub trait Key: Copy + Eq {
    const WIDTH: u8;
    /// all bits 0
    const ZERO: Self;
    fn bit(self, i: u8) -> bool;
    /// How many first bits the two have in common.
    fn common(self, other: Self) -> u8;
    /// The first `len` bits, zeros after.
    fn cut(self, len: u8) -> Self;
    /// The first 64 bits, zeros after.
    fn high(self) -> u64;
}

macro_rules! key {
    ($t:ty, $high:expr) => {
        impl Key for $t {
            const WIDTH: u8 = <$t>::BITS as u8;
            const ZERO: $t = 0;

            fn bit(self, i: u8) -> bool {
                self >> (Self::WIDTH - 1 - i) & 1 == 1
            }

            fn common(self, other: $t) -> u8 {
                (self ^ other).leading_zeros() as u8
            }

            fn cut(self, len: u8) -> $t {
                if len == 0 {
                    0
                } else {
                    self & <$t>::MAX << (Self::WIDTH - len)
                }
            }

            fn high(self) -> u64 {
                $high(self)
            }
        }
    };
}

key!(u32, |x: u32| u64::from(x) << 32);
key!(u128, |x: u128| (x >> 64) as u64);

#[derive(Clone, Copy)]
pub struct Node<K> {
    prefix: K,
    len: u8,
    hop: Option<K>,
    left: u16,
    right: u16,
}

impl<K: Key> Node<K> {
    pub fn new(prefix: K, len: u8, hop: Option<K>) -> Node<K> {
        Node { prefix, len, hop, left: NIL, right: NIL }
    }

    fn child(&self, side: bool) -> u16 {
        if side {
            self.right
        } else {
            self.left
        }
    }

    fn link(&mut self, side: bool, slot: u16) {
        if side {
            self.right = slot;
        } else {
            self.left = slot;
        }
    }

    fn covers(&self, address: K) -> bool {
        address.cut(self.len) == self.prefix
    }
}

#[derive(Clone, Copy, PartialEq, Eq, Debug)]
pub enum Refusal {
    NoPlane,
    BoundTooLong,
    NotHeld,
    NoRoom,
}

pub struct Trie<'a, K> {
    nodes: &'a mut [Node<K>],
    used: usize,
}

impl<'a, K: Key> Trie<'a, K> {
    pub fn new(nodes: &'a mut [Node<K>]) -> Trie<'a, K> {
        Trie { nodes, used: 0 }
    }

    /// The slot where the search for a prefix ends, and how many first bits its node has in common with it.
    fn seek(&self, prefix: K, len: u8) -> (usize, u8) {
        let mut slot = 0;
        loop {
            let node = &self.nodes[slot];
            let shared = node.prefix.common(prefix).min(node.len).min(len);
            if shared < node.len || shared == len {
                return (slot, shared);
            }
            match node.child(prefix.bit(shared)) {
                NIL => return (slot, shared),
                next => slot = usize::from(next),
            }
        }
    }

    fn push(&mut self, node: Node<K>) -> u16 {
        self.nodes[self.used] = node;
        self.used += 1;
        (self.used - 1) as u16
    }

    pub fn announce(&mut self, plane: u16, prefix: K, len: u8, hop: K) -> Result<(), Refusal> {
        if plane != 0 {
            return Err(Refusal::NoPlane);
        }
        let room = self.nodes.len().min(usize::from(NIL)) - self.used;
        let leaf = Node::new(prefix, len, Some(hop));
        if self.used == 0 {
            if room == 0 {
                return Err(Refusal::NoRoom);
            }
            self.push(leaf);
            return Ok(());
        }
        let (slot, shared) = self.seek(prefix, len);
        let node = self.nodes[slot];
        if shared == node.len && shared == len {
            self.nodes[slot].hop = Some(hop);
            return Ok(());
        }
        let more = if shared < node.len && shared < len { 2 } else { 1 };
        if more > room {
            return Err(Refusal::NoRoom);
        }
        if shared == node.len {
            // beneath the node
            let lower = self.push(leaf);
            self.nodes[slot].link(prefix.bit(shared), lower);
            return Ok(());
        }
        // above the node, or beside it under a new branch
        let lower = self.push(node);
        self.nodes[slot] = if shared == len { leaf } else { Node::new(prefix.cut(shared), shared, None) };
        self.nodes[slot].link(node.prefix.bit(shared), lower);
        if shared < len {
            let beside = self.push(leaf);
            self.nodes[slot].link(prefix.bit(shared), beside);
        }
        Ok(())
    }

    /// The slot and side of the link that leads to `slot`, which is not the root.
    fn parent(&self, slot: usize) -> (usize, bool) {
        let key = self.nodes[slot].prefix;
        let mut above = 0;
        loop {
            let side = key.bit(self.nodes[above].len);
            let next = usize::from(self.nodes[above].child(side));
            if next == slot {
                return (above, side);
            }
            above = next;
        }
    }

    /// Frees the slot, to which no link leads any more: the last node moves there.
    fn free(&mut self, slot: usize) {
        let last = self.used - 1;
        if slot != last {
            let (above, side) = self.parent(last);
            self.nodes[above].link(side, slot as u16);
            self.nodes[slot] = self.nodes[last];
        }
        self.used = last;
    }

    /// Puts the one node beneath the slot into its place.
    fn pull(&mut self, slot: usize) {
        let node = self.nodes[slot];
        let lower = usize::from(if node.left == NIL { node.right } else { node.left });
        self.nodes[slot] = self.nodes[lower];
        self.free(lower);
    }

    pub fn withdraw(&mut self, plane: u16, prefix: K, len: u8) -> Result<(), Refusal> {
        if plane != 0 {
            return Err(Refusal::NoPlane);
        }
        if self.used == 0 {
            return Err(Refusal::NotHeld);
        }
        let (slot, shared) = self.seek(prefix, len);
        let node = self.nodes[slot];
        if shared < node.len || shared < len || node.hop.is_none() {
            return Err(Refusal::NotHeld);
        }
        self.nodes[slot].hop = None;
        match (node.left, node.right) {
            (NIL, NIL) if slot == 0 => self.used = 0,
            (NIL, NIL) => {
                let (above, side) = self.parent(slot);
                self.nodes[above].link(side, NIL);
                let last = self.used - 1;
                self.free(slot);
                let above = if above == last { slot } else { above };
                if self.nodes[above].hop.is_none() {
                    self.pull(above);
                }
            }
            (NIL, _) | (_, NIL) => self.pull(slot),
            _ => {}
        }
        Ok(())
    }

    pub fn lookup(&self, address: K, bound: u8) -> Result<Option<(u8, K)>, Refusal> {
        if bound > K::WIDTH {
            return Err(Refusal::BoundTooLong);
        }
        let mut best = None;
        if self.used == 0 {
            return Ok(best);
        }
        let mut slot = 0;
        loop {
            let node = &self.nodes[slot];
            if let Some(hop) = node.hop {
                if node.len > bound || !node.covers(address) {
                    return Ok(best);
                }
                best = Some((node.len, hop));
            }
            if node.len >= bound {
                return Ok(best);
            }
            match node.child(address.bit(node.len)) {
                NIL => return Ok(best),
                next => slot = usize::from(next),
            }
        }
    }

    /// How many nodes there are on the way down to the first that does not cover the address.
    pub fn depth(&self, address: K) -> usize {
        let mut slot = 0;
        for count in 1.. {
            let node = &self.nodes[slot];
            if !node.covers(address) || node.len == K::WIDTH {
                return count;
            }
            match node.child(address.bit(node.len)) {
                NIL => return count,
                next => slot = usize::from(next),
            }
        }
        0
    }

    pub fn used(&self) -> usize {
        self.used
    }
}
