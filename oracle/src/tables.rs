//! The setup, and what follows from it: who holds what, R(T), V(T), local, conflicts.

use crate::sets::{KeySet, Set, SiteSet, TxnSet};

pub const MAX_KEYS: usize = 64;
pub const MAX_GROUPS: usize = 8;
pub const MAX_SITES: usize = 16;
pub const MAX_TRANSACTIONS: usize = 128;
/// The most reads, and the most writes, of one transaction.
pub const MAX_LIST: usize = 8;
pub const MAX_INPUT: usize = 60_000;

#[derive(Clone, Debug, Default, PartialEq, Eq)]
pub struct Setup {
    pub first_values: Vec<u32>,
    pub groups: Vec<Group>,
    pub transactions: Vec<Transaction>,
}

#[derive(Clone, Debug, PartialEq, Eq)]
pub struct Group {
    pub sites: usize,
    pub keys: KeySet,
}

#[derive(Clone, Debug, Default, PartialEq, Eq)]
pub struct Transaction {
    pub reads: Vec<usize>,
    pub writes: Vec<Write>,
}

#[derive(Clone, Copy, Debug, PartialEq, Eq)]
pub struct Write {
    pub key: usize,
    pub value: u32,
}

impl Transaction {
    pub fn written_keys(&self) -> Vec<usize> {
        self.writes.iter().map(|write| write.key).collect()
    }
}

/// What follows from one transaction's keys.
#[derive(Clone, Debug, PartialEq, Eq)]
pub struct Reach {
    pub read_keys: KeySet,
    pub written_keys: KeySet,
    /// R(T): the sites that hold any key of T.
    pub sites: SiteSet,
    /// V(T): the sites that hold any key T reads.
    pub voters: SiteSet,
    /// Each site of R(T) holds all keys of T.
    pub local: bool,
    /// The transactions, by number, that T conflicts with.
    pub conflicts: TxnSet,
}

#[derive(Clone, Debug, PartialEq, Eq)]
pub struct Tables {
    pub setup: Setup,
    /// The keys of each site, in group order.
    pub site_keys: Vec<KeySet>,
    pub reach: Vec<Reach>,
    /// No count over its limit, no absent key, no key twice in one list.
    pub usable: bool,
}

impl Tables {
    pub fn new(setup: Setup) -> Tables {
        let site_keys: Vec<KeySet> = setup
            .groups
            .iter()
            .flat_map(|group| std::iter::repeat_n(group.keys, group.sites))
            .collect();
        let reach = all_reaches(&setup.transactions, &site_keys);
        let usable = is_usable(&setup, site_keys.len());
        Tables { setup, site_keys, reach, usable }
    }

    pub fn sites(&self) -> usize {
        self.site_keys.len()
    }

    pub fn transactions(&self) -> usize {
        self.reach.len()
    }

    /// One reads a key that the other writes.
    pub fn conflict(&self, a: usize, b: usize) -> bool {
        conflict(&self.reach[a], &self.reach[b])
    }
}

fn conflict(a: &Reach, b: &Reach) -> bool {
    a.read_keys & b.written_keys != 0 || b.read_keys & a.written_keys != 0
}

pub fn set_of(keys: &[usize]) -> KeySet {
    keys.iter().fold(0, |set, key| set | KeySet::one(*key))
}

fn all_reaches(transactions: &[Transaction], site_keys: &[KeySet]) -> Vec<Reach> {
    let mut reaches: Vec<Reach> = transactions.iter().map(|txn| reach(txn, site_keys)).collect();
    for t in 0..reaches.len() {
        let in_conflict =
            (0..reaches.len()).filter(|other| conflict(&reaches[t], &reaches[*other]));
        reaches[t].conflicts = in_conflict.fold(0, |set, other| set | TxnSet::one(other));
    }
    reaches
}

fn reach(transaction: &Transaction, site_keys: &[KeySet]) -> Reach {
    let read_keys = set_of(&transaction.reads);
    let written_keys = set_of(&transaction.written_keys());
    let keys = read_keys | written_keys;
    let sites = holders_of_any(keys, site_keys);
    let local = site_keys.iter().all(|held| held & keys == 0 || keys & !held == 0);
    let voters = holders_of_any(read_keys, site_keys);
    Reach { read_keys, written_keys, sites, voters, local, conflicts: 0 }
}

fn holders_of_any(keys: KeySet, site_keys: &[KeySet]) -> SiteSet {
    let holders = site_keys.iter().enumerate().filter(|(_, held)| **held & keys != 0);
    holders.fold(0, |set, (site, _)| set | SiteSet::one(site))
}

fn is_usable(setup: &Setup, sites: usize) -> bool {
    let keys = setup.first_values.len();
    let list_is_usable = |list: &[usize]| {
        list.len() <= MAX_LIST && list.iter().all(|key| *key < keys) && !has_twice(list)
    };
    keys <= MAX_KEYS
        && sites <= MAX_SITES
        && setup.transactions.len() <= MAX_TRANSACTIONS
        && setup
            .transactions
            .iter()
            .all(|txn| list_is_usable(&txn.reads) && list_is_usable(&txn.written_keys()))
}

pub fn has_twice(list: &[usize]) -> bool {
    list.iter().enumerate().any(|(at, key)| list[..at].contains(key))
}
