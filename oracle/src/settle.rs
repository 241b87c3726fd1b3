//! SETTLE, twice: as its words say, and in time proportional to the steps taken.
//! Both take the same steps in the same order.

use crate::mistakes::Mistake;
use crate::sets::{Set, SiteSet, TxnSet};
use crate::state::{State, Verdict};
use crate::tables::MAX_SITES;

/// Repeats the first step accepted among CLOSE, DELIVER and CARRY, trying all in order.
pub fn plain(state: &mut State) -> u32 {
    let mut steps = 0;
    while first_close(state) || first_deliver(state) || first_carry(state) {
        steps += 1;
    }
    steps
}

/// CLOSE: lowest site, then queue order.
fn first_close(state: &mut State) -> bool {
    let mut sites = 0..state.tables.sites();
    sites.any(|s| state.queue(s).into_iter().any(|t| state.close(t, s).is_ok()))
}

/// DELIVER: lowest site.
fn first_deliver(state: &mut State) -> bool {
    let mut sites = 0..state.tables.sites();
    sites.any(|s| state.deliver(s).is_ok())
}

/// CARRY: lowest place, then from, then to.
fn first_carry(state: &mut State) -> bool {
    let sites = state.tables.sites();
    let mut by_place: Vec<usize> = (0..state.progress.len()).collect();
    by_place.sort_by_key(|t| state.rank(*t));
    by_place
        .into_iter()
        .any(|t| (0..sites).any(|from| (0..sites).any(|to| state.carry(t, from, to).is_ok())))
}

/// Takes the same steps as `plain`, from notes of what can still be done.
pub fn fast(state: &mut State) -> u32 {
    let live: Vec<usize> = (0..state.progress.len()).filter(|t| is_live(state, *t)).collect();
    if live.is_empty() {
        return 0;
    }
    let mut notes = Notes::new(state, live);
    let mut steps = 0;
    while notes.close(state) || notes.deliver(state) || notes.carry(state) {
        steps += 1;
    }
    steps
}

/// Some site has yet to deliver it, to close it, or to be handed a vote on it.
fn is_live(state: &State, t: usize) -> bool {
    state.progress[t].queued_at() != 0 || state.undelivered(t) != 0 || has_unsent_vote(state, t)
}

/// The sites of R(T) that a vote cast by `from` was not handed to.
fn without_vote(state: &State, t: usize, from: usize) -> SiteSet {
    state.reach(t).sites & !state.progress[t].carried[from] & !SiteSet::one(from)
}

fn has_unsent_vote(state: &State, t: usize) -> bool {
    let voted = state.progress[t].voted;
    let lacks = |from: usize| {
        if voted.has(from) {
            without_vote(state, t, from)
        } else {
            0
        }
    };
    voted != 0
        && !state.reach(t).local
        && (0..MAX_SITES).fold(0, |lacking, from| lacking | lacks(from)) != 0
}

/// What can still be done. Sets of transactions are by rank (place, then number) among
/// the live ones, except `queued`.
struct Notes {
    /// The transaction of each rank.
    by_rank: Vec<usize>,
    sites: [SiteNotes; MAX_SITES],
    /// Sites where something has changed since no CLOSE was found.
    look_for_close: SiteSet,
    /// Sites where something has changed since no DELIVER was found.
    look_for_deliver: SiteSet,
    /// The global transactions with a vote that may still be carried.
    look_for_carry: TxnSet,
}

#[derive(Clone, Copy, Default)]
struct SiteNotes {
    undelivered: TxnSet,
    queue: TxnSet,
    /// The queue, by transaction number.
    queued: TxnSet,
    /// Of the queue, those with the verdict commit, and abort.
    commits: TxnSet,
    aborts: TxnSet,
}

impl Notes {
    fn new(state: &State, mut live: Vec<usize>) -> Notes {
        live.sort_by_key(|t| state.rank(*t));
        let mut notes = Notes {
            by_rank: live,
            sites: [SiteNotes::default(); MAX_SITES],
            look_for_close: SiteSet::MAX,
            look_for_deliver: SiteSet::MAX,
            look_for_carry: 0,
        };
        for rank in 0..notes.by_rank.len() {
            notes.add(state, rank);
        }
        notes
    }

    fn add(&mut self, state: &State, rank: usize) {
        let t = self.by_rank[rank];
        for s in state.undelivered(t).members() {
            self.sites[s].undelivered.add(rank);
        }
        for s in state.progress[t].queued_at().members() {
            self.note_queued(state, rank, s);
        }
        if has_unsent_vote(state, t) {
            self.look_for_carry.add(rank);
        }
    }

    fn note_queued(&mut self, state: &State, rank: usize, s: usize) {
        self.sites[s].queue.add(rank);
        self.sites[s].queued.add(self.by_rank[rank]);
        self.note_verdict(state, rank, s);
    }

    /// Notes the verdict at s, which may have become known or changed.
    fn note_verdict(&mut self, state: &State, rank: usize, s: usize) {
        let t = self.by_rank[rank];
        let site = &mut self.sites[s];
        if !site.queue.has(rank) || !state.reach(t).sites.has(s) {
            return;
        }
        site.commits.remove(rank);
        site.aborts.remove(rank);
        match state.verdict(t, s) {
            Some(Verdict::Commit) => site.commits.add(rank),
            Some(Verdict::Abort) => site.aborts.add(rank),
            None => return,
        }
        self.look_for_close.add(s);
    }

    fn close(&mut self, state: &mut State) -> bool {
        while let Some(s) = self.look_for_close.first() {
            if let Some(rank) = self.first_closable(state, s) {
                self.close_at(state, rank, s);
                return true;
            }
            self.look_for_close.remove(s);
        }
        false
    }

    /// The first in the queue of s that aborts, or commits at the head.
    fn first_closable(&self, state: &State, s: usize) -> Option<usize> {
        let site = &self.sites[s];
        let head = site.queue.first()?;
        if site.commits.has(head) {
            let full = state.is_full_for(self.by_rank[head], s);
            if !full || state.makes(Mistake::FastOverflow) {
                return Some(head);
            }
        }
        site.aborts.first()
    }

    fn close_at(&mut self, state: &mut State, rank: usize, s: usize) {
        let t = self.by_rank[rank];
        let site = &mut self.sites[s];
        let verdict = Verdict::commit_if(site.commits.has(rank));
        site.queue.remove(rank);
        site.queued.remove(t);
        site.commits.remove(rank);
        site.aborts.remove(rank);
        state.finish(t, s, verdict);
        self.look_for_deliver.add(s);
    }

    fn deliver(&mut self, state: &mut State) -> bool {
        while let Some(s) = self.look_for_deliver.first() {
            if let Some(rank) = self.deliverable(state, s) {
                self.deliver_at(state, rank, s);
                return true;
            }
            self.look_for_deliver.remove(s);
        }
        false
    }

    /// The next one at s, unless it conflicts with one in the queue.
    fn deliverable(&self, state: &State, s: usize) -> Option<usize> {
        let site = &self.sites[s];
        let next = site.undelivered.first()?;
        let conflicts = state.reach(self.by_rank[next]).conflicts;
        (conflicts & site.queued == 0).then_some(next)
    }

    fn deliver_at(&mut self, state: &mut State, rank: usize, s: usize) {
        let t = self.by_rank[rank];
        self.sites[s].undelivered.remove(rank);
        let vote = state.enter_queue(t, s);
        if state.progress[t].queued_at().has(s) {
            self.note_queued(state, rank, s);
        }
        if vote.is_some() && !state.reach(t).local {
            self.look_for_carry.add(rank);
        }
        // Only an odd state has a vote handed on before it is cast.
        for holder in state.progress[t].carried[s].members() {
            self.note_verdict(state, rank, holder);
        }
    }

    fn carry(&mut self, state: &mut State) -> bool {
        while let Some(rank) = self.look_for_carry.first() {
            if let Some((from, to)) = unsent_vote(state, self.by_rank[rank]) {
                state.hand_vote(self.by_rank[rank], from, to);
                self.note_verdict(state, rank, to);
                return true;
            }
            self.look_for_carry.remove(rank);
        }
        false
    }
}

/// The lowest from, then to, between which a vote on t may be carried.
fn unsent_vote(state: &State, t: usize) -> Option<(usize, usize)> {
    let to = |from: usize| without_vote(state, t, from).first().map(|to| (from, to));
    let mut voters = state.progress[t].voted.members();
    if state.makes(Mistake::FastOrder) {
        return voters.filter_map(to).last();
    }
    voters.find_map(to)
}
