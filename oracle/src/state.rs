//! The state, and the terms that the steps are described with.

use std::rc::Rc;

use crate::mistakes::Mistake;
use crate::sets::{Set, SiteSet};
use crate::tables::{Reach, Setup, Tables, Transaction};
use crate::tables::{MAX_KEYS, MAX_LIST, MAX_SITES, MAX_TRANSACTIONS};

/// How often a replica was written, counted from 1.
#[derive(Clone, Copy, Debug, PartialEq, Eq, PartialOrd, Ord)]
pub struct Version(pub u32);

/// A transaction's place in the order of submission, counted from 1; 0 for none.
#[derive(Clone, Copy, Debug, PartialEq, Eq, PartialOrd, Ord)]
pub struct Place(pub u32);

pub const NO_PLACE: Place = Place(0);

/// What a replica holds for a key, and what a read records.
#[derive(Clone, Copy, Debug, PartialEq, Eq)]
pub struct Item {
    pub version: Version,
    pub value: u32,
}

#[derive(Clone, Copy, Debug, PartialEq, Eq)]
pub enum Vote {
    Yes = 1,
    No = 2,
}

impl Vote {
    pub fn yes_if(condition: bool) -> Vote {
        if condition {
            Vote::Yes
        } else {
            Vote::No
        }
    }
}

#[derive(Clone, Copy, Debug, PartialEq, Eq)]
pub enum Verdict {
    Commit = 1,
    Abort = 2,
}

impl Verdict {
    pub fn commit_if(condition: bool) -> Verdict {
        if condition {
            Verdict::Commit
        } else {
            Verdict::Abort
        }
    }
}

/// What has happened to one transaction.
#[derive(Clone, Debug, PartialEq, Eq)]
pub struct Progress {
    pub recorded: [Option<Item>; MAX_LIST],
    pub place: Place,
    pub delivered: SiteSet,
    pub closed: SiteSet,
    /// Of those closed, where it committed.
    pub committed: SiteSet,
    pub voted: SiteSet,
    /// Of those that voted, which said yes.
    pub yes: SiteSet,
    /// For each site, where its vote was carried to.
    pub carried: [SiteSet; MAX_SITES],
}

const UNTOUCHED: Progress = Progress {
    recorded: [None; MAX_LIST],
    place: NO_PLACE,
    delivered: 0,
    closed: 0,
    committed: 0,
    voted: 0,
    yes: 0,
    carried: [0; MAX_SITES],
};

impl Progress {
    /// The sites whose queue has it.
    pub fn queued_at(&self) -> SiteSet {
        self.delivered & !self.closed
    }

    /// The vote that s has cast.
    pub fn vote(&self, s: usize) -> Option<Vote> {
        self.voted.has(s).then(|| Vote::yes_if(self.yes.has(s)))
    }

    /// The verdict with which s has closed it.
    pub fn outcome(&self, s: usize) -> Option<Verdict> {
        self.closed.has(s).then(|| Verdict::commit_if(self.committed.has(s)))
    }

    /// s holds its own vote, and the votes carried to it.
    fn holds_vote(&self, s: usize, voter: usize) -> bool {
        voter == s || self.carried[voter].has(s)
    }
}

#[derive(Clone, Debug, PartialEq, Eq)]
pub struct State {
    pub tables: Rc<Tables>,
    /// At site times 64 plus key.
    pub store: Vec<Item>,
    pub progress: Vec<Progress>,
    pub mistake: Option<Mistake>,
}

impl State {
    pub fn fresh(setup: Setup) -> State {
        let tables = Rc::new(Tables::new(setup));
        let first_item = |at: usize| {
            let value = tables.setup.first_values.get(at % MAX_KEYS).copied().unwrap_or(0);
            Item { version: Version(1), value }
        };
        let store = (0..tables.sites() * MAX_KEYS).map(first_item).collect();
        let progress = vec![UNTOUCHED; tables.transactions()];
        State { tables, store, progress, mistake: None }
    }

    pub fn is_usable(&self) -> bool {
        let last_place = Place(MAX_TRANSACTIONS as u32);
        self.tables.usable && self.progress.iter().all(|progress| progress.place <= last_place)
    }

    pub fn makes(&self, mistake: Mistake) -> bool {
        self.mistake == Some(mistake)
    }

    pub fn item(&self, s: usize, key: usize) -> Item {
        self.store[s * MAX_KEYS + key]
    }

    pub fn transaction(&self, t: usize) -> &Transaction {
        &self.tables.setup.transactions[t]
    }

    pub fn reach(&self, t: usize) -> &Reach {
        &self.tables.reach[t]
    }

    pub fn holds(&self, s: usize, key: usize) -> bool {
        self.tables.site_keys[s].has(key)
    }

    pub fn submitted(&self) -> usize {
        self.progress.iter().filter(|progress| progress.place != NO_PLACE).count()
    }

    /// By place; equal places, the lower number first.
    pub fn rank(&self, t: usize) -> (Place, usize) {
        (self.progress[t].place, t)
    }

    fn in_queue(&self, s: usize) -> impl Iterator<Item = usize> + '_ {
        (0..self.progress.len()).filter(move |t| self.progress[*t].queued_at().has(s))
    }

    /// What s has delivered and not closed, in its order.
    pub fn queue(&self, s: usize) -> Vec<usize> {
        let mut queue: Vec<usize> = self.in_queue(s).collect();
        queue.sort_by_key(|t| self.rank(*t));
        queue
    }

    pub fn head(&self, s: usize) -> Option<usize> {
        self.in_queue(s).min_by_key(|t| self.rank(*t))
    }

    pub fn conflicts_in_queue(&self, t: usize, s: usize) -> bool {
        self.in_queue(s).any(|queued| self.tables.conflict(t, queued))
    }

    /// The sites of R(T) where a submitted one is still to be delivered.
    pub fn undelivered(&self, t: usize) -> SiteSet {
        let progress = &self.progress[t];
        let sites = if progress.place == NO_PLACE { 0 } else { self.reach(t).sites };
        sites & !progress.delivered
    }

    /// The lowest place not yet delivered at s whose R(T) has s.
    pub fn next(&self, s: usize) -> Option<usize> {
        let overtakes = self.makes(Mistake::Overtake);
        (0..self.progress.len())
            .filter(|t| self.undelivered(*t).has(s))
            .filter(|t| !overtakes || !self.conflicts_in_queue(*t, s))
            .min_by_key(|t| self.rank(*t))
    }

    /// Known once the sites whose votes s holds together hold all read keys.
    pub fn verdict(&self, t: usize, s: usize) -> Option<Verdict> {
        let progress = &self.progress[t];
        if self.makes(Mistake::CertifyAlone) {
            return Some(Verdict::commit_if(progress.vote(s) != Some(Vote::No)));
        }
        let mut missing = self.reach(t).read_keys;
        let mut all_yes = true;
        for voter in progress.voted.members().filter(|voter| progress.holds_vote(s, *voter)) {
            missing &= !self.tables.site_keys[voter];
            all_yes &= progress.yes.has(voter);
        }
        let good = all_yes || self.transaction(t).reads.is_empty();
        (missing == 0).then(|| Verdict::commit_if(good && !self.makes(Mistake::AbortAll)))
    }

    /// A written key's version at s cannot grow.
    pub fn is_full_for(&self, t: usize, s: usize) -> bool {
        self.transaction(t).writes.iter().any(|write| {
            self.holds(s, write.key) && self.item(s, write.key).version == Version(u32::MAX)
        })
    }
}
