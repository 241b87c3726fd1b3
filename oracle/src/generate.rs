//! Files by kind and seed.

use crate::damage;
use crate::limits;
use crate::machine::Step;
use crate::random::Random;
use crate::record::{file_of, setup_records, Record, HEADER};
use crate::schedule::{Habit, Schedule};
use crate::sets::{KeySet, Set};
use crate::tables::{Group, Setup, Transaction, Write};
use crate::tables::{MAX_INPUT, MAX_KEYS, MAX_LIST, MAX_SITES, MAX_TRANSACTIONS};

#[derive(Clone, Copy, Debug, PartialEq, Eq)]
pub enum Kind {
    Small,
    Contended,
    Large,
    Limits,
    Malformed,
    Long,
    Worst,
    Idle,
}

/// Name, kind and weight under `any`.
const KINDS: [(&str, Kind, usize); 8] = [
    ("small", Kind::Small, 400),
    ("contended", Kind::Contended, 250),
    ("large", Kind::Large, 20),
    ("limits", Kind::Limits, 120),
    ("malformed", Kind::Malformed, 200),
    ("long", Kind::Long, 5),
    ("worst", Kind::Worst, 3),
    ("idle", Kind::Idle, 2),
];

pub fn kind_names() -> String {
    let names: Vec<&str> = KINDS.iter().map(|(name, _, _)| *name).collect();
    format!("{} any", names.join(" "))
}

/// The kind of that name; `any` picks one by the seed.
pub fn kind(name: &str, seed: u64) -> Option<Kind> {
    if name == "any" {
        let weights = KINDS.map(|(_, _, weight)| weight);
        return Some(KINDS[Random::new(!seed).weighted(&weights)].1);
    }
    KINDS.iter().find(|(known, _, _)| *known == name).map(|(_, kind, _)| *kind)
}

pub fn kind_name(kind: Kind) -> &'static str {
    KINDS.iter().find(|(_, known, _)| *known == kind).map_or("", |(name, _, _)| name)
}

pub fn file(kind: Kind, seed: u64) -> Vec<u8> {
    let random = &mut Random::new(seed);
    match kind {
        Kind::Small => small(random),
        Kind::Contended => contended(random),
        Kind::Large => large(random),
        Kind::Limits => limits::file(seed, random),
        Kind::Malformed => damage::file(seed, random),
        Kind::Long => long(random),
        Kind::Worst => worst(random),
        Kind::Idle => idle(random),
    }
}

/// Bounds, each lowest and highest, for a random setup.
pub struct Shape {
    pub keys: (usize, usize),
    pub groups: (usize, usize),
    pub group_sites: (usize, usize),
    pub transactions: (usize, usize),
    pub reads: (usize, usize),
    pub writes: (usize, usize),
}

const SMALL: Shape = Shape {
    keys: (1, 4),
    groups: (1, 4),
    group_sites: (1, 2),
    transactions: (0, 6),
    reads: (0, 3),
    writes: (0, 3),
};

const CONTENDED: Shape = Shape {
    keys: (1, 3),
    groups: (1, 3),
    group_sites: (1, 2),
    transactions: (4, 9),
    reads: (0, 2),
    writes: (1, 2),
};

const LARGE: Shape = Shape {
    keys: (MAX_KEYS, MAX_KEYS),
    groups: (8, 8),
    group_sites: (2, 2),
    transactions: (MAX_TRANSACTIONS, MAX_TRANSACTIONS),
    reads: (0, MAX_LIST),
    writes: (0, MAX_LIST),
};

fn within(bounds: (usize, usize), random: &mut Random) -> usize {
    random.range(bounds.0, bounds.1)
}

pub fn setup(shape: &Shape, random: &mut Random) -> Setup {
    let keys = within(shape.keys, random);
    let masks = group_masks(keys, within(shape.groups, random), random);
    let groups = masks
        .into_iter()
        .map(|keys| Group { sites: within(shape.group_sites, random), keys })
        .collect();
    let transactions = within(shape.transactions, random);
    Setup {
        first_values: (0..keys).map(|_| value(random)).collect(),
        groups,
        transactions: (0..transactions).map(|_| transaction(shape, keys, random)).collect(),
    }
}

/// Masks that are not 0 and together hold all keys: each its own, all the same, or any.
fn group_masks(keys: usize, groups: usize, random: &mut Random) -> Vec<KeySet> {
    let all = KeySet::MAX >> (MAX_KEYS - keys);
    let mut masks: Vec<KeySet> = match random.below(6) {
        0 => vec![all; groups],
        1 => (0..groups).map(|group| KeySet::one(group % keys)).collect(),
        2 => (0..groups).map(|_| random.next() & random.next() & all).collect(),
        _ => (0..groups).map(|_| random.next() & all).collect(),
    };
    for mask in masks.iter_mut().filter(|mask| **mask == 0) {
        mask.add(random.below(keys));
    }
    let held = masks.iter().fold(0, |held, mask| held | mask);
    for key in (all & !held).members() {
        masks[random.below(groups)].add(key);
    }
    masks
}

fn transaction(shape: &Shape, keys: usize, random: &mut Random) -> Transaction {
    let all: Vec<usize> = (0..keys).collect();
    let (r, w) = (within(shape.reads, random), within(shape.writes, random));
    let reads = random.some_of(&all, r);
    let at_least = usize::from(reads.is_empty());
    let written = random.some_of(&all, w.max(at_least));
    let writes = written.into_iter().map(|key| Write { key, value: value(random) }).collect();
    Transaction { reads, writes }
}

/// Values of few and of many digits.
fn value(random: &mut Random) -> u32 {
    (random.next() as u32) >> random.pick(&[0, 8, 16, 24, 28])
}

/// Few sites, keys and transactions; all sorts of steps.
pub fn small(random: &mut Random) -> Vec<u8> {
    let mut schedule = Schedule::new(setup(&SMALL, random));
    let habit = Habit {
        likely: random.pick(&[20, 70, 90]),
        settle: random.pick(&[0, 3, 12]),
        weights: [25, 15, 20, 20, 20],
    };
    for _ in 0..random.below(50) {
        schedule.add_chosen(&habit, random);
    }
    if random.chance(60) {
        schedule.add(Step::Settle);
    }
    schedule.finish()
}

/// Few keys, many conflicts; reads at different times, so that some abort.
fn contended(random: &mut Random) -> Vec<u8> {
    let mut schedule = Schedule::new(setup(&CONTENDED, random));
    let habit = Habit {
        likely: random.pick(&[85, 97]),
        settle: random.pick(&[0, 1, 5]),
        weights: random.pick(&[
            [20, 20, 20, 20, 20],
            [40, 10, 20, 15, 15],
            [10, 10, 25, 25, 30],
            [20, 20, 40, 5, 2],
        ]),
    };
    for _ in 0..random.range(20, 90) {
        schedule.add_chosen(&habit, random);
    }
    if random.chance(80) {
        schedule.add(Step::Settle);
    }
    schedule.finish()
}

/// As many of everything as the limits allow.
fn large(random: &mut Random) -> Vec<u8> {
    let shape = large_shape(random);
    let mut schedule = Schedule::new(setup(&shape, random));
    let habit = Habit {
        likely: 95,
        settle: random.pick(&[0, 0, 1]),
        weights: random.pick(&[[60, 20, 5, 5, 10], [30, 10, 20, 20, 20]]),
    };
    for _ in 0..random.range(200, 4000) {
        schedule.add_chosen(&habit, random);
    }
    schedule.add(Step::Settle);
    schedule.finish()
}

/// All limits reached; at times few reads and writes, so that more commit.
fn large_shape(random: &mut Random) -> Shape {
    let most = random.pick(&[1, 2, MAX_LIST]);
    Shape { reads: (0, most), writes: (0, most), ..LARGE }
}

/// Single steps up to the last byte that fits.
fn long(random: &mut Random) -> Vec<u8> {
    let shape = if random.chance(50) { large_shape(random) } else { medium_shape() };
    let mut schedule = Schedule::new(setup(&shape, random));
    let habit = Habit { likely: 90, settle: 0, weights: [25, 8, 15, 40, 15] };
    let longest_step = HEADER + 3;
    while schedule.size + longest_step <= MAX_INPUT {
        schedule.add_chosen(&habit, random);
    }
    schedule.finish()
}

fn medium_shape() -> Shape {
    Shape {
        keys: (4, 12),
        groups: (2, 5),
        group_sites: (1, 3),
        reads: (0, 2),
        writes: (0, 2),
        ..LARGE
    }
}

/// The most steps in one SETTLE: every transaction global, every site in V.
fn worst(random: &mut Random) -> Vec<u8> {
    let setup = worst_setup(random);
    let mut records = setup_records(&setup);
    records.extend(all_submitted(&setup, random).into_iter().map(Record::step));
    records.push(Record::step(Step::Settle));
    file_of(&records)
}

/// Groups of two to eight sites, each group with its own keys; each transaction reads one
/// key of each group.
fn worst_setup(random: &mut Random) -> Setup {
    let groups = random.pick(&[2, 4, 8]);
    let own_keys = random.pick(&[1, 4, MAX_KEYS / groups]);
    let keys = groups * own_keys;
    let most_writes = random.pick(&[0, 1, MAX_LIST]);
    let all: Vec<usize> = (0..keys).collect();
    let one_transaction = |random: &mut Random| {
        let reads = (0..groups).map(|group| group * own_keys + random.below(own_keys)).collect();
        let w = random.range(0, most_writes);
        let written = random.some_of(&all, w);
        let writes = written.into_iter().map(|key| Write { key, value: value(random) }).collect();
        Transaction { reads, writes }
    };
    let own = KeySet::MAX >> (MAX_KEYS - own_keys);
    Setup {
        first_values: (0..keys).map(|_| value(random)).collect(),
        groups: (0..groups)
            .map(|group| Group { sites: MAX_SITES / groups, keys: own << (group * own_keys) })
            .collect(),
        transactions: (0..MAX_TRANSACTIONS).map(|_| one_transaction(random)).collect(),
    }
}

/// All reads, each at the first site that holds the key, then all SUBMIT in random order.
fn all_submitted(setup: &Setup, random: &mut Random) -> Vec<Step> {
    let mut steps = Vec::new();
    for (t, transaction) in setup.transactions.iter().enumerate() {
        for (i, key) in transaction.reads.iter().enumerate() {
            steps.push(Step::Read { t, i, s: first_holder(setup, *key) });
        }
    }
    let all: Vec<usize> = (0..setup.transactions.len()).collect();
    let order = random.some_of(&all, all.len());
    steps.extend(order.into_iter().map(|t| Step::Submit { t }));
    steps
}

fn first_holder(setup: &Setup, key: usize) -> usize {
    let before = setup.groups.iter().take_while(|group| !group.keys.has(key));
    before.map(|group| group.sites).sum()
}

/// SETTLE to the end of the file; only the first, if any, has something to do.
fn idle(random: &mut Random) -> Vec<u8> {
    let setup = worst_setup(random);
    let mut records = setup_records(&setup);
    if random.chance(70) {
        records.extend(all_submitted(&setup, random).into_iter().map(Record::step));
    }
    let mut out = file_of(&records);
    let settle = Record::step(Step::Settle);
    while out.len() + HEADER <= MAX_INPUT {
        settle.put(&mut out);
    }
    out
}
