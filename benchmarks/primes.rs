//! Prime implicants in plain Rust, to compare ways to remember results: rustc -O benchmarks/primes.rs
//! Its words are a way, a model and the limits, as `./primes limit plant 20 6`. All limits run on one table. Models:
//! `xor` of 18 events, a tree of exclusive pairs; `plant`, two of five systems over common support, where a train is
//! taken out only while its neighbour is not.
//! The ways differ in how the prime implicants of a node are remembered:
//! - `limit`: by node and limit, each literal lowers the limit (Coudert and Madre). This is the way of psa_prime.
//! - `between`: as `limit`; where the results for a lesser and a greater limit are one family, it is that for the
//!   limits between. A result in which nothing was cut is remembered for the greatest limit and for a bound of its
//!   literals too.
//! - `wider`: a result for a greater limit, up to that of the call, serves by its short members.
mod node_table;

use node_table::{MemoKey, Node, NodeTable, Operation, and, or};
use std::collections::HashMap;
use std::time::Instant;

#[derive(Clone, Copy, PartialEq, Eq)]
enum Way {
    Limit,
    Between,
    Wider,
}

fn family_sides(id: u64, node: Option<Node>, var: u32) -> (u64, u64) {
    match node {
        Some(node) if node.var == var => (node.hi, node.lo),
        _ => (0, id),
    }
}

/// The members of the left family that are none of the right one.
fn difference(table: &mut NodeTable, left: u64, right: u64) -> u64 {
    if left == right || left == 0 || right == 1 {
        return 0;
    }
    if right == 0 || left == 1 {
        return left;
    }
    let key = MemoKey { operation: Operation::Without, left, right, limit: 0 };
    if let Some(id) = table.memo.get(&key) {
        return *id;
    }
    let first = table.node(left);
    let second = table.node(right);
    let id = if second.var < first.var {
        difference(table, left, second.lo)
    } else {
        let (right_hi, right_lo) = family_sides(right, Some(second), first.var);
        let hi = difference(table, first.hi, right_hi);
        let lo = difference(table, first.lo, right_lo);
        table.zbdd_node(first.var, hi, lo)
    };
    table.memo.insert(key, id);
    id
}

fn key_of(root: u64, limit: u8) -> MemoKey {
    MemoKey { operation: Operation::Primes, left: root, right: 0, limit }
}

/// The node of the primes with a literal of the variable, and of those without one.
fn joined(table: &mut NodeTable, var: u32, with: u64, with_not: u64, rest: u64) -> u64 {
    let past = table.zbdd_node(2 * var + 1, with_not, rest);
    table.zbdd_node(2 * var, with, past)
}

/// The way `limit`.
fn by_limit(table: &mut NodeTable, root: u64, limit: u8) -> u64 {
    if root < 2 {
        return root;
    }
    if limit == 0 {
        return 0;
    }
    if let Some(id) = table.memo.get(&key_of(root, limit)) {
        return *id;
    }
    let node = table.node(root);
    let both = and(table, node.hi, node.lo);
    let rest = by_limit(table, both, limit);
    let mut sides = [0, 0];
    for (side, child) in sides.iter_mut().zip([node.hi, node.lo]) {
        if child != both {
            let primes = by_limit(table, child, limit - 1);
            *side = difference(table, primes, rest);
        }
    }
    let id = joined(table, node.var, sides[0], sides[1], rest);
    table.memo.insert(key_of(root, limit), id);
    id
}

const GREATEST: u8 = u8::MAX;

/// The family, and a bound of its members' literals where nothing was cut.
#[derive(Clone, Copy)]
struct Primes {
    family: u64,
    longest: Option<u8>,
}

/// The way `between`.
fn by_bounds(table: &mut NodeTable, root: u64, limit: u8) -> Primes {
    if root < 2 {
        return Primes { family: root, longest: Some(0) };
    }
    if limit == 0 {
        return Primes { family: 0, longest: None };
    }
    let whole = table.memo.get(&key_of(root, GREATEST)).copied();
    if let Some(family) = whole {
        let longest = (1..=limit).find(|k| table.memo.get(&key_of(root, *k)) == Some(&family));
        if longest.is_some() {
            return Primes { family, longest };
        }
    }
    if let Some(family) = table.memo.get(&key_of(root, limit)) {
        return Primes { family: *family, longest: None };
    }
    let node = table.node(root);
    let both = and(table, node.hi, node.lo);
    let rest = by_bounds(table, both, limit);
    let mut sides = [0, 0];
    let mut longest = rest.longest;
    for (side, child) in sides.iter_mut().zip([node.hi, node.lo]) {
        if child != both {
            let primes = by_bounds(table, child, limit - 1);
            *side = difference(table, primes.family, rest.family);
            longest = match (longest, primes.longest) {
                (Some(_), Some(_)) if *side == 0 => longest,
                (Some(a), Some(b)) => Some(a.max(b + 1)),
                _ => None,
            };
        }
    }
    let family = joined(table, node.var, sides[0], sides[1], rest.family);
    match longest {
        Some(longest) if whole.is_none() => {
            table.memo.insert(key_of(root, GREATEST), family);
            table.memo.insert(key_of(root, longest), family);
        }
        _ => {
            table.memo.insert(key_of(root, limit), family);
        }
    }
    Primes { family, longest }
}

/// The members of at most `limit` literals. No operation of psa_nodes stands for this; here it has a place of its own.
fn within(table: &mut NodeTable, family: u64, limit: u8) -> u64 {
    if family < 2 {
        return family;
    }
    let key = MemoKey { operation: Operation::Product, left: family, right: 1, limit };
    if let Some(id) = table.memo.get(&key) {
        return *id;
    }
    let node = table.node(family);
    let lo = within(table, node.lo, limit);
    let hi = if limit > 0 { within(table, node.hi, limit - 1) } else { 0 };
    let id = table.zbdd_node(node.var, hi, lo);
    table.memo.insert(key, id);
    id
}

/// The way `wider`, in a call for the limit `most`.
fn by_wider(table: &mut NodeTable, root: u64, limit: u8, most: u8) -> u64 {
    if root < 2 {
        return root;
    }
    if limit == 0 {
        return 0;
    }
    for wider in limit..=most {
        if let Some(family) = table.memo.get(&key_of(root, wider)) {
            let family = *family;
            return if wider == limit { family } else { within(table, family, limit) };
        }
    }
    let node = table.node(root);
    let both = and(table, node.hi, node.lo);
    let rest = by_wider(table, both, limit, most);
    let mut sides = [0, 0];
    for (side, child) in sides.iter_mut().zip([node.hi, node.lo]) {
        if child != both {
            let primes = by_wider(table, child, limit - 1, most);
            *side = difference(table, primes, rest);
        }
    }
    let id = joined(table, node.var, sides[0], sides[1], rest);
    table.memo.insert(key_of(root, limit), id);
    id
}

fn primes(table: &mut NodeTable, way: Way, root: u64, limit: u8) -> u64 {
    match way {
        Way::Limit => by_limit(table, root, limit),
        Way::Between => by_bounds(table, root, limit).family,
        Way::Wider => by_wider(table, root, limit, limit),
    }
}

/// A formula over events and earlier gates.
enum Formula {
    Event(String),
    Gate(usize),
    Not(Box<Formula>),
    Xor(Box<Formula>, Box<Formula>),
    AtLeast(usize, Vec<Formula>),
}

fn event(name: String) -> Formula {
    Formula::Event(name)
}

fn any(arguments: Vec<Formula>) -> Formula {
    Formula::AtLeast(1, arguments)
}

fn all(arguments: Vec<Formula>) -> Formula {
    Formula::AtLeast(arguments.len(), arguments)
}

/// The gates of a model; the last one is the top.
#[derive(Default)]
struct Model {
    gates: Vec<Formula>,
}

impl Model {
    fn gate(&mut self, formula: Formula) -> usize {
        self.gates.push(formula);
        self.gates.len() - 1
    }

    /// Exclusive pairs of events, pairs of pairs, and so on.
    fn xor(&mut self, events: usize) {
        let mut row: Vec<Formula> = (0..events).map(|i| event(format!("e{i}"))).collect();
        while row.len() > 1 {
            let mut next = Vec::new();
            let mut row_items = row.into_iter();
            while let Some(first) = row_items.next() {
                match row_items.next() {
                    Some(second) => next.push(Formula::Gate(self.gate(Formula::Xor(Box::new(first), Box::new(second))))),
                    None => next.push(first),
                }
            }
            row = next;
        }
    }

    /// Two of so many systems of two trains. A train needs a bus and a cooling loop, a bus the grid or its diesel, a diesel
    /// service water, a cooling loop one of two pumps. The second train is out only while the first one is not.
    fn plant(&mut self, systems: usize) {
        const BUSES: usize = 4;
        const COMPONENTS: usize = 6;
        let mut power = Vec::new();
        let mut bus = Vec::new();
        for b in 0..BUSES {
            let spare = all(vec![event(format!("CHG{b}")), event(format!("SPARE{}", b / 2))]);
            power.push(self.gate(any(vec![event(format!("BAT{b}")), spare])));
        }
        for b in 0..BUSES {
            let water = any(vec![event(format!("SWS{b}")), event(format!("SWV{b}")), Formula::Gate(power[b]), event("SWCC".into())]);
            let water = self.gate(water);
            let own = ["DGS", "DGR", "DGB"].iter().map(|name| event(format!("{name}{b}")));
            let common = [event("FUEL".into()), Formula::Gate(water), event("DGCC".into())];
            let diesel = self.gate(any(own.chain(common).collect()));
            let unfed = all(vec![event("GRID".into()), Formula::Gate(diesel)]);
            bus.push(self.gate(any(vec![event(format!("BSF{b}")), unfed, event(format!("TRF{b}"))])));
        }
        let mut cooling = Vec::new();
        for c in 0..BUSES {
            let pump = |i: usize, b: usize| {
                let own = ["CWP", "CWV"].iter().map(|name| event(format!("{name}{c}_{i}")));
                any(own.chain([Formula::Gate(bus[b]), Formula::Gate(power[b])]).collect())
            };
            let pumps = all(vec![pump(0, c), pump(1, (c + 1) % BUSES)]);
            cooling.push(self.gate(any(vec![event(format!("CWH{c}")), pumps])));
        }
        let mut fails = Vec::new();
        for s in 0..systems {
            let mut trains = Vec::new();
            for t in 0..2 {
                let b = (s + t) % BUSES;
                let mut causes: Vec<Formula> = (0..COMPONENTS).map(|c| event(format!("S{s}T{t}C{c}"))).collect();
                causes.push(all(vec![event(format!("S{s}T{t}MA")), event(format!("S{s}T{t}MB"))]));
                let by_hand = all(vec![event(format!("S{s}CH{t}")), event(format!("S{s}MAN"))]);
                causes.push(any(vec![event(format!("S{s}SIG0")), by_hand]));
                causes.push(Formula::Gate(bus[b]));
                causes.push(Formula::Gate(cooling[(b + 1) % BUSES]));
                let out = event(format!("S{s}T{t}MNT"));
                if t == 1 {
                    let there = Formula::Not(Box::new(event(format!("S{s}T0MNT"))));
                    causes.push(all(vec![out, there]));
                } else {
                    causes.push(out);
                }
                trains.push(Formula::Gate(self.gate(any(causes))));
            }
            let system = any(vec![all(trains), event(format!("S{s}TANK")), event(format!("S{s}CCF"))]);
            fails.push(Formula::Gate(self.gate(system)));
        }
        self.gate(all(vec![event("IE".into()), Formula::AtLeast(2, fails)]));
    }
}

/// Diagrams of the gates, and of their opposites; ranks go to the events as they are met from the top on.
struct Diagrams<'m> {
    model: &'m Model,
    ranks: HashMap<&'m str, u32>,
    made: HashMap<(usize, bool), u64>,
}

impl<'m> Diagrams<'m> {
    fn rank(&mut self, formula: &'m Formula, entered: &mut Vec<bool>) {
        match formula {
            Formula::Event(name) => {
                let next = self.ranks.len() as u32;
                self.ranks.entry(name).or_insert(next);
            }
            Formula::Gate(place) => {
                if !std::mem::replace(&mut entered[*place], true) {
                    self.rank(&self.model.gates[*place], entered);
                }
            }
            Formula::Not(inner) => self.rank(inner, entered),
            Formula::Xor(left, right) => {
                self.rank(left, entered);
                self.rank(right, entered);
            }
            Formula::AtLeast(_, arguments) => {
                for argument in arguments {
                    self.rank(argument, entered);
                }
            }
        }
    }

    fn make(&mut self, table: &mut NodeTable, formula: &Formula, holds: bool) -> u64 {
        match formula {
            Formula::Event(name) => {
                let (hi, lo) = if holds { (1, 0) } else { (0, 1) };
                table.bdd_node(self.ranks[name.as_str()], hi, lo)
            }
            Formula::Gate(place) => {
                if let Some(id) = self.made.get(&(*place, holds)) {
                    return *id;
                }
                let model = self.model;
                let id = self.make(table, &model.gates[*place], holds);
                self.made.insert((*place, holds), id);
                id
            }
            Formula::Not(inner) => self.make(table, inner, !holds),
            Formula::Xor(left, right) => {
                let (first, second) = (self.make(table, left, true), self.make(table, right, !holds));
                let one = and(table, first, second);
                let (first, second) = (self.make(table, left, false), self.make(table, right, holds));
                let other = and(table, first, second);
                or(table, one, other)
            }
            Formula::AtLeast(least, arguments) => {
                let least = if holds { *least } else { arguments.len() + 1 - least };
                let ids: Vec<u64> = arguments.iter().map(|argument| self.make(table, argument, holds)).collect();
                // at least k of the arguments from the i-th on, for each k
                let mut some = vec![0; least + 1];
                some[0] = 1;
                for id in ids.into_iter().rev() {
                    for k in (1..=least).rev() {
                        let with = and(table, id, some[k - 1]);
                        some[k] = or(table, with, some[k]);
                    }
                }
                some[least]
            }
        }
    }
}

/// The members of a family by their number of literals.
fn count(table: &NodeTable, family: u64, counted: &mut HashMap<u64, Vec<u64>>) -> Vec<u64> {
    if family < 2 {
        return vec![family];
    }
    if let Some(counts) = counted.get(&family) {
        return counts.clone();
    }
    let node = table.node(family);
    let (hi, mut counts) = (count(table, node.hi, counted), count(table, node.lo, counted));
    counts.resize(counts.len().max(hi.len() + 1), 0);
    for (length, number) in hi.iter().enumerate() {
        counts[length + 1] += number;
    }
    counted.insert(family, counts.clone());
    counts
}

fn main() {
    let words: Vec<String> = std::env::args().skip(1).collect();
    let way = match words.first().map(String::as_str) {
        Some("between") => Way::Between,
        Some("wider") => Way::Wider,
        _ => Way::Limit,
    };
    let mut model = Model::default();
    match words.get(1).map(String::as_str) {
        Some("plant") => model.plant(5),
        _ => model.xor(18),
    }
    let mut diagrams = Diagrams { model: &model, ranks: HashMap::new(), made: HashMap::new() };
    let top = Formula::Gate(model.gates.len() - 1);
    let mut entered = vec![false; model.gates.len()];
    diagrams.rank(&model.gates[model.gates.len() - 1], &mut entered);
    let mut table = NodeTable::default();
    let start = Instant::now();
    let root = diagrams.make(&mut table, &top, true);
    println!("diagram: {} nodes, {} remembered results, root {root}, {:?}", table.nodes.len(), table.entries(), start.elapsed());
    for word in words.iter().skip(2) {
        let limit = word.parse().unwrap();
        let start = Instant::now();
        let family = primes(&mut table, way, root, limit);
        let time = start.elapsed();
        let counts = count(&table, family, &mut HashMap::new());
        println!("limit {limit}: {} nodes, {} remembered results, root {family}, {time:?}", table.nodes.len(), table.entries());
        println!("  {} products, by literals {counts:?}", counts.iter().sum::<u64>());
    }
}
