//! What an answer says about the states before and after a step.

use crate::machine::{Answer, Step, UNUSABLE};
use crate::sets::Set;
use crate::state::{State, Verdict, Version, NO_PLACE};
use crate::tables::MAX_KEYS;

/// Tests one step: its answer, what it changed, and that it changed nothing else.
/// (SETTLE's effect is tested elsewhere.)
pub fn judge(before: &State, step: Step, answer: Answer, after: &State) -> Result<(), String> {
    if answer.number != 0 {
        return judge_refusal(before, step, answer, after);
    }
    let mut undone = after.clone();
    let fits = match step {
        Step::Read { t, i, s } => read_fits(before, (t, i, s), answer, &mut undone),
        Step::Submit { t } => submit_fits(before, t, answer, &mut undone),
        Step::Deliver { s } => deliver_fits(before, s, answer, &mut undone),
        Step::Carry { t, from, to } => carry_fits(before, (t, from, to), answer, &mut undone),
        Step::Close { t, s } => close_fits(before, (t, s), answer, &mut undone),
        Step::Settle => return Ok(()),
    };
    if !fits {
        return Err(format!("{step:?} answers {answer:?}, which does not fit the states"));
    }
    same(before, &undone, || format!("{step:?} changes more than it should"))
}

fn same(a: &State, b: &State, fault: impl Fn() -> String) -> Result<(), String> {
    if a == b {
        Ok(())
    } else {
        Err(fault())
    }
}

fn judge_refusal(before: &State, step: Step, answer: Answer, after: &State) -> Result<(), String> {
    let expected = if before.is_usable() { refusals(step) } else { &[UNUSABLE] };
    if !expected.contains(&answer.number) || (answer.first, answer.second) != (0, 0) {
        return Err(format!("{step:?} is refused with {answer:?}"));
    }
    same(before, after, || format!("{step:?} is refused with {} and changes", answer.number))
}

/// The refusals of each step, in their order.
fn refusals(step: Step) -> &'static [u8] {
    match step {
        Step::Read { .. } => &[20, 22, 21, 23, 24],
        Step::Submit { .. } => &[20, 24, 25],
        Step::Deliver { .. } => &[21, 26, 27],
        Step::Carry { .. } => &[20, 21, 23, 28, 24],
        Step::Close { .. } => &[20, 21, 23, 24, 29, 30, 31, 32],
        Step::Settle => &[],
    }
}

// Each of the following compares an answer with the states before and after, and takes
// back in `after` what the step was to change.

fn read_fits(
    before: &State,
    (t, i, s): (usize, usize, usize),
    answer: Answer,
    after: &mut State,
) -> bool {
    let item = before.item(s, before.transaction(t).reads[i]);
    let recorded = after.progress[t].recorded[i].take();
    recorded == Some(item) && (answer.first, answer.second) == (item.version.0, item.value)
}

fn submit_fits(before: &State, t: usize, answer: Answer, after: &mut State) -> bool {
    let place = std::mem::replace(&mut after.progress[t].place, NO_PLACE);
    place.0 == answer.first && answer.first as usize == before.submitted() + 1 && answer.second == 0
}

fn deliver_fits(before: &State, s: usize, answer: Answer, after: &mut State) -> bool {
    let t = answer.first as usize;
    let voter = before.reach(t).voters.has(s);
    let vote = if voter { after.progress[t].vote(s).map_or(0, |vote| vote as u32) } else { 0 };
    let fits = after.progress[t].delivered.has(s)
        && is_lowest_undelivered(before, t, s)
        && nothing_conflicts(before, t, s)
        && (vote != 0) == voter
        && answer.second == vote;
    after.progress[t].delivered.remove(s);
    after.progress[t].voted = before.progress[t].voted;
    after.progress[t].yes = before.progress[t].yes;
    fits
}

fn is_lowest_undelivered(state: &State, t: usize, s: usize) -> bool {
    let place = state.progress[t].place;
    let waits = |other: &usize| {
        let progress = &state.progress[*other];
        progress.place != NO_PLACE && state.reach(*other).sites.has(s) && !progress.delivered.has(s)
    };
    let lower = |other: usize| (state.progress[other].place, other) < (place, t);
    waits(&t) && !(0..state.progress.len()).filter(waits).any(lower)
}

fn nothing_conflicts(state: &State, t: usize, s: usize) -> bool {
    let transactions = &state.tables.setup.transactions;
    let reads_of_other = |reader: usize, writer: usize| {
        let written = transactions[writer].written_keys();
        transactions[reader].reads.iter().any(|key| written.contains(key))
    };
    state.queue(s).into_iter().all(|q| !reads_of_other(t, q) && !reads_of_other(q, t))
}

fn carry_fits(
    before: &State,
    (t, from, to): (usize, usize, usize),
    answer: Answer,
    after: &mut State,
) -> bool {
    let vote = before.progress[t].vote(from).map_or(0, |vote| vote as u32);
    let handed = after.progress[t].carried[from].has(to);
    after.progress[t].carried[from].remove(to);
    handed && vote != 0 && (answer.first, answer.second) == (vote, 0)
}

fn close_fits(before: &State, (t, s): (usize, usize), answer: Answer, after: &mut State) -> bool {
    let Some(verdict) = after.progress[t].outcome(s) else {
        return false;
    };
    let fits = (answer.first, answer.second) == (verdict as u32, 0)
        && (verdict == Verdict::Abort || before.queue(s).first() == Some(&t));
    after.progress[t].closed.remove(s);
    after.progress[t].committed = before.progress[t].committed;
    fits && (verdict == Verdict::Abort || take_back_writes(before, (t, s), after))
}

/// Each written key that s holds has the value, and one more version.
fn take_back_writes(before: &State, (t, s): (usize, usize), after: &mut State) -> bool {
    let writes = &before.transaction(t).writes;
    writes.iter().filter(|write| before.holds(s, write.key)).all(|write| {
        let old = before.item(s, write.key);
        let grown = old.version.0.checked_add(1).map(Version);
        let new = std::mem::replace(&mut after.store[s * MAX_KEYS + write.key], old);
        Some(new.version) == grown && new.value == write.value
    })
}
