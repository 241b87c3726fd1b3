//! The steps. Each is judged first, in the order of its refusals; only an accepted one
//! changes the state.

use std::rc::Rc;

use crate::mistakes::Mistake;
use crate::sets::Set;
use crate::state::{Item, Place, State, Verdict, Version, Vote, NO_PLACE};
use crate::tables::MAX_KEYS;

pub const UNUSABLE: u8 = 10;
const NO_TRANSACTION: u8 = 20;
const NO_SITE: u8 = 21;
const NO_READ: u8 = 22;
const NOT_HELD: u8 = 23;
const DONE_BEFORE: u8 = 24;
const READ_MISSING: u8 = 25;
const NOTHING_TO_DELIVER: u8 = 26;
const NEXT_CONFLICTS: u8 = 27;
const NO_VOTE_TO_CARRY: u8 = 28;
const NOT_DELIVERED: u8 = 29;
const VERDICT_UNKNOWN: u8 = 30;
const NOT_AT_HEAD: u8 = 31;
const VERSION_FULL: u8 = 32;

#[derive(Clone, Copy, Debug, PartialEq, Eq)]
pub enum Step {
    Read { t: usize, i: usize, s: usize },
    Submit { t: usize },
    Deliver { s: usize },
    Carry { t: usize, from: usize, to: usize },
    Close { t: usize, s: usize },
    Settle,
}

/// 0 and two numbers, or a refusal and two zeros.
#[derive(Clone, Copy, Debug, PartialEq, Eq)]
pub struct Answer {
    pub number: u8,
    pub first: u32,
    pub second: u32,
}

/// A way to carry out SETTLE; gives the number of steps taken.
pub type Settle = fn(&mut State) -> u32;

/// Nothing, or the refusal with this number.
pub fn ensure(condition: bool, number: u8) -> Result<(), u8> {
    if condition {
        Ok(())
    } else {
        Err(number)
    }
}

impl State {
    pub fn step(&mut self, step: Step, settle: Settle) -> Answer {
        let taken = ensure(self.is_usable(), UNUSABLE).and_then(|()| self.take(step, settle));
        if taken.is_err() && self.makes(Mistake::RefusalWrites) {
            self.store.iter_mut().take(1).for_each(|item| item.value ^= 1);
        }
        match taken {
            Ok((first, second)) => Answer { number: 0, first, second },
            Err(number) => Answer { number, first: 0, second: 0 },
        }
    }

    /// The two numbers of an accepted step, or the refusal.
    fn take(&mut self, step: Step, settle: Settle) -> Result<(u32, u32), u8> {
        match step {
            Step::Read { t, i, s } => {
                let item = self.read(t, i, s)?;
                let extra = u32::from(self.makes(Mistake::WrongAnswer));
                Ok((item.version.0.wrapping_add(extra), item.value))
            }
            Step::Submit { t } => Ok((self.submit(t)?.0, 0)),
            Step::Deliver { s } => {
                let (t, vote) = self.deliver(s)?;
                Ok((t as u32, vote.map_or(0, |vote| vote as u32)))
            }
            Step::Carry { t, from, to } => Ok((self.carry(t, from, to)? as u32, 0)),
            Step::Close { t, s } => Ok((self.close(t, s)? as u32, 0)),
            Step::Settle => Ok((settle(self) + u32::from(self.makes(Mistake::OffByOne)), 0)),
        }
    }

    /// Would this step be accepted on a usable state?
    pub fn accepts(&self, step: Step) -> bool {
        match step {
            Step::Read { t, i, s } => self.judge_read(t, i, s).is_ok(),
            Step::Submit { t } => self.judge_submit(t).is_ok(),
            Step::Deliver { s } => self.judge_deliver(s).is_ok(),
            Step::Carry { t, from, to } => self.judge_carry(t, from, to).is_ok(),
            Step::Close { t, s } => self.judge_close(t, s).is_ok(),
            Step::Settle => true,
        }
    }

    fn know_transaction(&self, t: usize) -> Result<(), u8> {
        ensure(t < self.progress.len(), NO_TRANSACTION)
    }

    fn know_site(&self, s: usize) -> Result<(), u8> {
        ensure(s < self.tables.sites(), NO_SITE)
    }
}

/// READ
impl State {
    /// The item that the read returns.
    fn judge_read(&self, t: usize, i: usize, s: usize) -> Result<Item, u8> {
        self.know_transaction(t)?;
        let key = *self.transaction(t).reads.get(i).ok_or(NO_READ)?;
        self.know_site(s)?;
        ensure(self.holds(s, key), NOT_HELD)?;
        ensure(self.progress[t].recorded[i].is_none(), DONE_BEFORE)?;
        Ok(self.item(s, key))
    }

    fn read(&mut self, t: usize, i: usize, s: usize) -> Result<Item, u8> {
        let item = self.judge_read(t, i, s)?;
        self.progress[t].recorded[i] = Some(item);
        Ok(item)
    }
}

/// SUBMIT
impl State {
    /// The place given.
    fn judge_submit(&self, t: usize) -> Result<Place, u8> {
        self.know_transaction(t)?;
        let progress = &self.progress[t];
        let recorded = &progress.recorded[..self.transaction(t).reads.len()];
        ensure(progress.place == NO_PLACE, DONE_BEFORE)?;
        ensure(recorded.iter().all(Option::is_some), READ_MISSING)?;
        let submitted = self.submitted() as u32;
        let repeats = self.makes(Mistake::SamePlace) && submitted == 1;
        Ok(Place(if repeats { 1 } else { submitted + 1 }))
    }

    fn submit(&mut self, t: usize) -> Result<Place, u8> {
        let place = self.judge_submit(t)?;
        self.progress[t].place = place;
        Ok(place)
    }
}

/// DELIVER
impl State {
    /// The transaction delivered.
    fn judge_deliver(&self, s: usize) -> Result<usize, u8> {
        self.know_site(s)?;
        let next = self.next(s).ok_or(NOTHING_TO_DELIVER)?;
        let blocked = self.conflicts_in_queue(next, s) && !self.makes(Mistake::NoConflict);
        ensure(!blocked, NEXT_CONFLICTS)?;
        Ok(next)
    }

    pub fn deliver(&mut self, s: usize) -> Result<(usize, Option<Vote>), u8> {
        let t = self.judge_deliver(s)?;
        Ok((t, self.enter_queue(t, s)))
    }

    pub fn enter_queue(&mut self, t: usize, s: usize) -> Option<Vote> {
        self.progress[t].delivered.add(s);
        if !self.reach(t).voters.has(s) {
            return None;
        }
        let vote = self.certify(t, s);
        let progress = &mut self.progress[t];
        progress.voted.add(s);
        match vote {
            Vote::Yes => progress.yes.add(s),
            Vote::No => progress.yes.remove(s),
        }
        Some(vote)
    }

    /// Yes exactly if each read key held by s has the recorded version there.
    fn certify(&self, t: usize, s: usize) -> Vote {
        let mut reads = self.transaction(t).reads.iter().zip(&self.progress[t].recorded);
        let good = reads.all(|(key, recorded)| {
            let version = recorded.map(|item| item.version);
            !self.holds(s, *key) || version == Some(self.item(s, *key).version)
        });
        Vote::yes_if(good || self.makes(Mistake::VoteYes))
    }
}

/// CARRY
impl State {
    /// The vote carried.
    fn judge_carry(&self, t: usize, from: usize, to: usize) -> Result<Vote, u8> {
        self.know_transaction(t)?;
        self.know_site(from)?;
        self.know_site(to)?;
        let progress = &self.progress[t];
        let stays = self.reach(t).local && !self.makes(Mistake::CarryLocal);
        let too_late = progress.closed.has(to) && self.makes(Mistake::CarryOpen);
        ensure(self.reach(t).sites.has(to), NOT_HELD)?;
        ensure(!stays && from != to, NO_VOTE_TO_CARRY)?;
        let vote = progress.vote(from).ok_or(NO_VOTE_TO_CARRY)?;
        ensure(!progress.carried[from].has(to) && !too_late, DONE_BEFORE)?;
        Ok(vote)
    }

    pub fn carry(&mut self, t: usize, from: usize, to: usize) -> Result<Vote, u8> {
        let vote = self.judge_carry(t, from, to)?;
        self.hand_vote(t, from, to);
        Ok(vote)
    }

    pub fn hand_vote(&mut self, t: usize, from: usize, to: usize) {
        self.progress[t].carried[from].add(to);
    }
}

/// CLOSE
impl State {
    /// The verdict it closes with.
    fn judge_close(&self, t: usize, s: usize) -> Result<Verdict, u8> {
        self.know_transaction(t)?;
        self.know_site(s)?;
        let progress = &self.progress[t];
        ensure(self.reach(t).sites.has(s), NOT_HELD)?;
        ensure(!progress.closed.has(s), DONE_BEFORE)?;
        ensure(progress.delivered.has(s), NOT_DELIVERED)?;
        let verdict = self.verdict(t, s).ok_or(VERDICT_UNKNOWN)?;
        if verdict == Verdict::Commit {
            let anywhere = self.makes(Mistake::CommitAny);
            ensure(anywhere || self.head(s) == Some(t), NOT_AT_HEAD)?;
            ensure(!self.is_full_for(t, s), VERSION_FULL)?;
        }
        Ok(verdict)
    }

    pub fn close(&mut self, t: usize, s: usize) -> Result<Verdict, u8> {
        let verdict = self.judge_close(t, s)?;
        self.finish(t, s, verdict);
        Ok(verdict)
    }

    pub fn finish(&mut self, t: usize, s: usize, verdict: Verdict) {
        let progress = &mut self.progress[t];
        progress.closed.add(s);
        match verdict {
            Verdict::Commit => progress.committed.add(s),
            Verdict::Abort => progress.committed.remove(s),
        }
        if verdict == Verdict::Commit || self.makes(Mistake::CountAborted) {
            self.store_writes(t, s, verdict);
        }
    }

    /// For each written key that s holds, the value, and 1 more to the version.
    fn store_writes(&mut self, t: usize, s: usize, verdict: Verdict) {
        let tables = Rc::clone(&self.tables);
        let writes = tables.setup.transactions[t].writes.iter();
        for write in writes.filter(|write| tables.site_keys[s].has(write.key)) {
            let item = &mut self.store[s * MAX_KEYS + write.key];
            item.version = Version(item.version.0.wrapping_add(1));
            if verdict == Verdict::Commit {
                item.value = write.value;
            }
        }
    }
}
