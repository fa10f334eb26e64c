//! Minimal cut sets of plants in plain Rust, to compare ways of remembering results: rustc -O benchmarks/cut_sets.rs
//! Its words are a way, the number of plants and the limits, as `./cut_sets wider 8 20 6`. All limits run on one table.
//! The ways differ in how a result on the minimal cut sets of a node is remembered:
//! - `wider`: by node and limit, each event taken lowers the limit (Rauzy); a result for a greater limit, up to that of
//!   the call, serves by its short members. This is the way of psa_zbdd.
//! - `limit`: by node and limit alone.
//! - `bound`: as `limit`; an answer in which nothing was cut is whole, and serves every limit not below a bound of its
//!   members' events, one more than that of the high side or that of the low side. Both are remembered as entries.
//! - `one-limit`: by node and the limit of the call; the members of the high side are cut to one event less afterwards.
mod node_table;

use node_table::{Fast, MemoKey, Node, NodeTable, Operation, and, or};
use std::collections::HashMap;
use std::time::Instant;

#[derive(Clone, Copy, PartialEq, Eq)]
enum Way {
    Wider,
    Limit,
    Bound,
    OneLimit,
}

fn family_sides(id: u64, node: Option<Node>, var: u32) -> (u64, u64) {
    match node {
        Some(node) if node.var == var => (node.hi, node.lo),
        _ => (0, id),
    }
}

/// The members of the left family that include no member of the right one.
fn without(table: &mut NodeTable, left: u64, right: u64) -> u64 {
    if left == right || left == 0 || right == 1 {
        return 0;
    }
    if right == 0 {
        return left;
    }
    let key = MemoKey { operation: Operation::Without, left, right, limit: 0 };
    if let Some(id) = table.memo.get(&key) {
        return *id;
    }
    let first = (left > 1).then(|| table.node(left));
    let second = (right > 1).then(|| table.node(right));
    let var = first.map_or(u32::MAX, |node| node.var).min(second.map_or(u32::MAX, |node| node.var));
    let (left_hi, left_lo) = family_sides(left, first, var);
    let (right_hi, right_lo) = family_sides(right, second, var);
    let both = without(table, left_hi, right_hi);
    let hi = without(table, both, right_lo);
    let lo = without(table, left_lo, right_lo);
    let id = table.zbdd_node(var, hi, lo);
    table.memo.insert(key, id);
    id
}

fn cut_key(root: u64, limit: u8) -> MemoKey {
    MemoKey { operation: Operation::MinimalOfBdd, left: root, right: 0, limit }
}

/// The way `limit`.
fn by_limit(table: &mut NodeTable, root: u64, limit: u8) -> u64 {
    if root < 2 {
        return root;
    }
    if let Some(id) = table.memo.get(&cut_key(root, limit)) {
        return *id;
    }
    let node = table.node(root);
    let lo = by_limit(table, node.lo, limit);
    let mut hi = 0;
    if limit > 0 {
        let high = by_limit(table, node.hi, limit - 1);
        hi = without(table, high, lo);
    }
    let id = table.zbdd_node(2 * node.var, hi, lo);
    table.memo.insert(cut_key(root, limit), id);
    id
}

const WHOLE: u8 = u8::MAX;

/// The minimal cut sets within a limit. Where nothing was cut in them, `longest` bounds their events.
#[derive(Clone, Copy)]
struct CutSets {
    family: u64,
    longest: Option<u8>,
}

/// The whole answer at a node, with its bound where that is within the limit.
fn whole_answer(table: &NodeTable, root: u64, limit: u8) -> Option<CutSets> {
    let family = *table.memo.get(&cut_key(root, WHOLE))?;
    let longest = (0..=limit).find(|k| table.memo.get(&cut_key(root, *k)) == Some(&family));
    Some(CutSets { family, longest })
}

/// The way `bound`.
fn by_whole(table: &mut NodeTable, root: u64, limit: u8) -> CutSets {
    if root < 2 {
        return CutSets { family: root, longest: Some(0) };
    }
    let known = whole_answer(table, root, limit);
    if let Some(answer @ CutSets { longest: Some(_), .. }) = known {
        return answer;
    }
    if let Some(family) = table.memo.get(&cut_key(root, limit)) {
        return CutSets { family: *family, longest: None };
    }
    let node = table.node(root);
    let low = by_whole(table, node.lo, limit);
    let (mut hi, mut longest) = (0, None);
    if low.family == 1 {
        longest = Some(0);
    } else if limit > 0 {
        let high = by_whole(table, node.hi, limit - 1);
        hi = without(table, high.family, low.family);
        longest = match (high.longest, low.longest) {
            (Some(_), Some(low)) if hi == 0 => Some(low),
            (Some(high), Some(low)) => Some(low.max(high + 1)),
            _ => None,
        };
    }
    let family = table.zbdd_node(2 * node.var, hi, low.family);
    match longest {
        Some(longest) if known.is_none() => {
            table.memo.insert(cut_key(root, WHOLE), family);
            table.memo.entry(cut_key(root, longest)).or_insert(family);
        }
        _ => {
            table.memo.insert(cut_key(root, limit), family);
        }
    }
    CutSets { family, longest }
}

/// The members of at most `limit` events: the product with the family of the empty set.
fn within(table: &mut NodeTable, family: u64, limit: u8) -> u64 {
    if family < 2 {
        return family;
    }
    let key = MemoKey { operation: Operation::Product, left: family, right: 1, limit };
    if let Some(id) = table.memo.get(&key) {
        return *id;
    }
    let node = table.node(family);
    let lo = within(table, node.lo, limit);
    let hi = if limit > 0 { within(table, node.hi, limit - 1) } else { 0 };
    let id = table.zbdd_node(node.var, hi, lo);
    table.memo.insert(key, id);
    id
}

/// The way `one-limit`.
fn at_one_limit(table: &mut NodeTable, root: u64, limit: u8) -> u64 {
    if root < 2 {
        return root;
    }
    if let Some(id) = table.memo.get(&cut_key(root, limit)) {
        return *id;
    }
    let node = table.node(root);
    let lo = at_one_limit(table, node.lo, limit);
    let mut hi = 0;
    if limit > 0 && lo != 1 {
        let high = at_one_limit(table, node.hi, limit);
        let rest = without(table, high, lo);
        hi = within(table, rest, limit - 1);
    }
    let id = table.zbdd_node(2 * node.var, hi, lo);
    table.memo.insert(cut_key(root, limit), id);
    id
}

/// The way `wider`, in a call for the limit `most`.
fn by_wider(table: &mut NodeTable, root: u64, limit: u8, most: u8) -> u64 {
    if root < 2 {
        return root;
    }
    for wider in limit..=most {
        if let Some(family) = table.memo.get(&cut_key(root, wider)) {
            let family = *family;
            return if wider == limit { family } else { within(table, family, limit) };
        }
    }
    let node = table.node(root);
    let lo = by_wider(table, node.lo, limit, most);
    let mut hi = 0;
    if limit > 0 && lo != 1 {
        let high = by_wider(table, node.hi, limit - 1, most);
        hi = without(table, high, lo);
    }
    let id = table.zbdd_node(2 * node.var, hi, lo);
    table.memo.insert(cut_key(root, limit), id);
    id
}

fn minimal_cut_sets(table: &mut NodeTable, way: Way, root: u64, limit: u8) -> u64 {
    match way {
        Way::Wider => by_wider(table, root, limit, limit),
        Way::Limit => by_limit(table, root, limit),
        Way::Bound => by_whole(table, root, limit).family,
        Way::OneLimit => at_one_limit(table, root, limit),
    }
}

/// Trains of a plant, and components of a train.
const TRAINS: u32 = 4;
const ROWS: u32 = 4;

/// Events of a row: a component of each train, a support that two trains share, one of a train of its own.
const COLUMNS: u32 = 9;

/// Plants whose events alternate in the order of ranks.
const TOGETHER: u32 = 3;

/// The events at `count` ranks from the first on, each `step` past the one before.
#[derive(Clone, Copy)]
struct Events {
    first: u32,
    step: u32,
    count: u32,
}

fn some(table: &mut NodeTable, events: Events) -> u64 {
    let mut all = 0;
    for i in (0..events.count).rev() {
        let event = table.bdd_node(events.first + i * events.step, 1, 0);
        all = or(table, event, all);
    }
    all
}

fn every(table: &mut NodeTable, events: Events) -> u64 {
    let mut all = 1;
    for i in (0..events.count).rev() {
        let event = table.bdd_node(events.first + i * events.step, 1, 0);
        all = and(table, event, all);
    }
    all
}

/// Train `train` of the plant whose first rank is `base` fails where a component does, its own support, that of one to
/// three redundant events, or a support of two events that it shares with the train before or after it.
fn train(table: &mut NodeTable, base: u32, train: u32) -> u64 {
    let row = COLUMNS * TOGETHER;
    let components = some(table, Events { first: base + train * TOGETHER, step: row, count: ROWS });
    let own = Events { first: base + train * row + 6 * TOGETHER, step: TOGETHER, count: 3.min(train + 1) };
    let own = every(table, own);
    let mut fails = or(table, components, own);
    for neighbour in [train, (train + 1) % TRAINS] {
        let shared = Events { first: base + neighbour * row + 4 * TOGETHER, step: TOGETHER, count: 2 };
        let shared = every(table, shared);
        fails = or(table, fails, shared);
    }
    fails
}

/// A plant fails where two of its trains do.
fn plant(table: &mut NodeTable, plant: u32) -> u64 {
    let base = plant / TOGETHER * (TOGETHER * ROWS * COLUMNS) + plant % TOGETHER;
    let (mut one, mut two) = (0, 0);
    for i in 0..TRAINS {
        let fails = train(table, base, i);
        let both = and(table, one, fails);
        two = or(table, two, both);
        one = or(table, one, fails);
    }
    two
}

/// The members of a family by their number of events.
fn count(table: &NodeTable, family: u64, counted: &mut HashMap<u64, Vec<u64>, Fast>) -> Vec<u64> {
    if family < 2 {
        return vec![family];
    }
    if let Some(counts) = counted.get(&family) {
        return counts.clone();
    }
    let node = table.node(family);
    let (hi, mut counts) = (count(table, node.hi, counted), count(table, node.lo, counted));
    counts.resize(counts.len().max(hi.len() + 1), 0);
    for (length, number) in hi.iter().enumerate() {
        counts[length + 1] += number;
    }
    counted.insert(family, counts.clone());
    counts
}

fn main() {
    let words: Vec<String> = std::env::args().skip(1).collect();
    let way = match words.first().map(String::as_str) {
        Some("limit") => Way::Limit,
        Some("bound") => Way::Bound,
        Some("one-limit") => Way::OneLimit,
        _ => Way::Wider,
    };
    let mut numbers = words.iter().skip(1).map(|word| word.parse::<u8>().unwrap());
    let plants = u32::from(numbers.next().unwrap_or(8));
    let limits: Vec<u8> = numbers.collect();
    let mut table = NodeTable::default();
    let start = Instant::now();
    let mut root = 0;
    for i in (0..plants).rev() {
        let fails = plant(&mut table, i);
        root = or(&mut table, fails, root);
    }
    println!("diagram: {} nodes, {} remembered results, root {root}, {:?}", table.nodes.len(), table.entries(), start.elapsed());
    for limit in limits {
        let start = Instant::now();
        let family = minimal_cut_sets(&mut table, way, root, limit);
        let time = start.elapsed();
        let counts = count(&table, family, &mut HashMap::default());
        println!("limit {limit}: {} nodes, {} remembered results, root {family}, {time:?}", table.nodes.len(), table.entries());
        println!("  {} products, by events {counts:?}", counts.iter().sum::<u64>());
    }
}
