//! The node table of psa_nodes and the connectives of psa_bdd in plain Rust, for the programs beside this file: HashMaps
//! under a fast hash, and a Vec of nodes.
#![allow(dead_code)] // a program uses a part of it
use std::collections::HashMap;
use std::hash::{BuildHasherDefault, Hash, Hasher};

/// The multiplicative hash of Firefox and rustc.
#[derive(Default)]
pub struct FastHasher(u64);

impl FastHasher {
    fn add(&mut self, word: u64) {
        self.0 = (self.0.rotate_left(5) ^ word).wrapping_mul(0x517c_c1b7_2722_0a95);
    }
}

impl Hasher for FastHasher {
    fn write(&mut self, bytes: &[u8]) {
        for byte in bytes {
            self.add(u64::from(*byte));
        }
    }
    fn write_u8(&mut self, n: u8) {
        self.add(u64::from(n));
    }
    fn write_u32(&mut self, n: u32) {
        self.add(u64::from(n));
    }
    fn write_u64(&mut self, n: u64) {
        self.add(n);
    }
    fn write_isize(&mut self, n: isize) {
        self.add(n as u64);
    }
    fn finish(&self) -> u64 {
        self.0
    }
}

pub type Fast = BuildHasherDefault<FastHasher>;

#[derive(Clone, Copy, PartialEq, Eq, Hash)]
pub enum Kind {
    Bdd,
    Zbdd,
}

#[derive(Clone, Copy, PartialEq, Eq, Hash)]
pub struct Node {
    pub kind: Kind,
    pub var: u32,
    pub hi: u64,
    pub lo: u64,
}

#[derive(Clone, Copy, PartialEq, Eq, Hash)]
pub enum Operation {
    And,
    Or,
    Product,
    Without,
    MinimalOfBdd,
    Primes,
}

#[derive(Clone, Copy, PartialEq, Eq, Hash)]
pub struct MemoKey {
    pub operation: Operation,
    pub left: u64,
    pub right: u64,
    pub limit: u8,
}

#[derive(Default)]
pub struct NodeTable {
    pub nodes: Vec<Node>,
    ids: HashMap<Node, u64, Fast>,
    pub memo: HashMap<MemoKey, u64, Fast>,
}

impl NodeTable {
    fn add(&mut self, node: Node) -> u64 {
        let next = self.nodes.len() as u64 + 2;
        let id = *self.ids.entry(node).or_insert(next);
        if id == next {
            self.nodes.push(node);
        }
        id
    }

    pub fn bdd_node(&mut self, var: u32, hi: u64, lo: u64) -> u64 {
        if hi == lo { lo } else { self.add(Node { kind: Kind::Bdd, var, hi, lo }) }
    }

    pub fn zbdd_node(&mut self, var: u32, hi: u64, lo: u64) -> u64 {
        if hi == 0 { lo } else { self.add(Node { kind: Kind::Zbdd, var, hi, lo }) }
    }

    pub fn node(&self, id: u64) -> Node {
        self.nodes[(id - 2) as usize]
    }

    pub fn entries(&self) -> usize {
        self.memo.len()
    }
}

fn trivial(operation: Operation, left: u64, right: u64) -> Option<u64> {
    let (dominant, neutral) = if operation == Operation::And { (0, 1) } else { (1, 0) };
    if left == right || left == dominant || right == neutral {
        return Some(left);
    }
    if right == dominant || left == neutral {
        return Some(right);
    }
    None
}

fn sides(id: u64, node: Node, var: u32) -> (u64, u64) {
    if node.var == var { (node.hi, node.lo) } else { (id, id) }
}

fn combine(table: &mut NodeTable, operation: Operation, left: u64, right: u64) -> u64 {
    if let Some(id) = trivial(operation, left, right) {
        return id;
    }
    let key = MemoKey { operation, left: left.min(right), right: left.max(right), limit: 0 };
    if let Some(id) = table.memo.get(&key) {
        return *id;
    }
    let (first, second) = (table.node(left), table.node(right));
    let var = first.var.min(second.var);
    let (left_hi, left_lo) = sides(left, first, var);
    let (right_hi, right_lo) = sides(right, second, var);
    let hi = combine(table, operation, left_hi, right_hi);
    let lo = combine(table, operation, left_lo, right_lo);
    let id = table.bdd_node(var, hi, lo);
    table.memo.insert(key, id);
    id
}

pub fn or(table: &mut NodeTable, left: u64, right: u64) -> u64 {
    combine(table, Operation::Or, left, right)
}

pub fn and(table: &mut NodeTable, left: u64, right: u64) -> u64 {
    combine(table, Operation::And, left, right)
}
