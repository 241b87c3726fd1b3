//! States that were not reached from fresh: odd ones, which run by the rules, and
//! unusable ones, where each step answers 10.

use crate::random::Random;
use crate::sets::{KeySet, SiteSet};
use crate::state::{Item, Place, Progress, State, Version};
use crate::tables::{Group, Setup, Transaction, Write};
use crate::tables::{MAX_KEYS, MAX_LIST, MAX_SITES, MAX_TRANSACTIONS};

/// Usable, with flags, places and versions that no run would give.
pub fn odd_state(random: &mut Random) -> State {
    let mut state = State::fresh(odd_setup(random));
    let sites = SiteSet::MAX.checked_shr((MAX_SITES - state.tables.sites()) as u32).unwrap_or(0);
    for item in &mut state.store {
        *item = odd_item(random);
    }
    for progress in &mut state.progress {
        touch(progress, sites, random);
    }
    state
}

/// Masks may name absent keys or none; keys may be held by nobody; groups may be empty.
fn odd_setup(random: &mut Random) -> Setup {
    let keys = random.range(1, 4);
    let groups = random.range(0, 4);
    let transactions = random.range(0, 6);
    Setup {
        first_values: vec![0; keys],
        groups: (0..groups).map(|_| odd_group(random)).collect(),
        transactions: (0..transactions).map(|_| odd_transaction(keys, random)).collect(),
    }
}

fn odd_group(random: &mut Random) -> Group {
    let keys: KeySet = if random.chance(10) { random.next() } else { random.next() & 15 };
    Group { sites: random.pick(&[0, 1, 1, 2, 2]), keys }
}

/// Lists of any length, empty ones included.
fn odd_transaction(keys: usize, random: &mut Random) -> Transaction {
    let all: Vec<usize> = (0..keys).collect();
    let (r, w) = (random.below(4), random.below(4));
    let reads = random.some_of(&all, r);
    let written = random.some_of(&all, w);
    let writes = written.into_iter().map(|key| Write { key, value: random.next() as u32 });
    Transaction { reads, writes: writes.collect() }
}

fn odd_item(random: &mut Random) -> Item {
    let version = Version(random.pick(&[0, 1, 1, 1, 2, u32::MAX - 1, u32::MAX]));
    Item { version, value: random.below(3) as u32 }
}

fn touch(progress: &mut Progress, sites: SiteSet, random: &mut Random) {
    for recorded in &mut progress.recorded {
        *recorded = random.chance(80).then(|| odd_item(random));
    }
    progress.place = Place(random.pick(&[0, 1, 2, 2, 3, 5, 128]));
    progress.delivered = some_sites(sites, random);
    progress.closed = some_sites(sites, random) & some_sites(sites, random);
    progress.committed = progress.closed & some_sites(sites, random);
    progress.voted = some_sites(sites, random);
    progress.yes = progress.voted & random.next() as SiteSet;
    let untold = random.chance(60);
    for carried in &mut progress.carried {
        *carried = if untold { 0 } else { some_sites(sites, random) };
    }
}

/// None, few or many of the sites.
fn some_sites(sites: SiteSet, random: &mut Random) -> SiteSet {
    let any = random.next() as SiteSet;
    let fewer = random.next() as SiteSet;
    sites & random.pick(&[0, any & fewer, any])
}

/// A state that breaks one of the conditions of use.
pub fn unusable_state(random: &mut Random) -> State {
    let mut setup = odd_setup(random);
    setup.transactions.push(Transaction { reads: vec![0], writes: vec![] });
    let way = random.below(10);
    if way == 0 {
        let mut state = State::fresh(setup);
        let t = random.below(state.progress.len());
        state.progress[t].place = Place(random.pick(&[129, 255, u32::MAX]));
        return state;
    }
    break_setup(&mut setup, way, random);
    State::fresh(setup)
}

fn break_setup(setup: &mut Setup, way: usize, random: &mut Random) {
    let write = |key: usize| Write { key, value: 1 };
    let absent = random.pick(&[setup.first_values.len(), 64, 255]);
    let too_many = 0..=MAX_LIST;
    if way == 3 || way == 4 {
        setup.first_values = vec![0; MAX_LIST + 1];
    }
    let t = random.below(setup.transactions.len());
    let transaction = &mut setup.transactions[t];
    match way {
        1 => setup.first_values = vec![0; MAX_KEYS + 1],
        2 => setup.groups.push(Group { sites: MAX_SITES + 1, keys: 1 }),
        3 => transaction.reads = too_many.collect(),
        4 => transaction.writes = too_many.map(write).collect(),
        5 => transaction.reads.push(absent),
        6 => transaction.writes.push(write(absent)),
        7 => transaction.reads = vec![0, 0],
        8 => transaction.writes = vec![write(0), write(0)],
        _ => setup.transactions.resize(MAX_TRANSACTIONS + 1, Transaction::default()),
    }
}
