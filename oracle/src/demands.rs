//! Demand 3: agreement between sites, and equality with the run on a single copy.

use crate::sets::Set;
use crate::state::{Item, State, Verdict, Version, NO_PLACE};

/// For each key, the values that the copy gave to versions 1, 2, ...
struct Copy {
    values: Vec<Vec<u32>>,
}

impl Copy {
    fn last(&self, key: usize) -> Item {
        let values = &self.values[key];
        Item { version: Version(values.len() as u32), value: values[values.len() - 1] }
    }

    fn value_of(&self, key: usize, version: Version) -> Option<u32> {
        let at = usize::try_from(version.0).ok()?.checked_sub(1)?;
        self.values[key].get(at).copied()
    }
}

pub fn hold(state: &State) -> Result<(), String> {
    sites_agree(state)?;
    let copy = run_copy(state)?;
    replicas_follow(state, &copy)?;
    if all_closed(state) {
        replicas_are_last(state, &copy)
    } else {
        Ok(())
    }
}

/// No transaction commits at one site and aborts at another.
fn sites_agree(state: &State) -> Result<(), String> {
    for (t, progress) in state.progress.iter().enumerate() {
        if progress.committed != 0 && progress.closed & !progress.committed != 0 {
            return Err(format!("transaction {t} commits at one site and aborts at another"));
        }
    }
    Ok(())
}

/// The verdict of some site that has closed t.
pub fn outcome(state: &State, t: usize) -> Option<Verdict> {
    let progress = &state.progress[t];
    progress.outcome(progress.closed.first()?)
}

/// Runs the committed ones alone, by place; each closed one must have committed exactly if
/// its reads returned what the copy held just before its place.
fn run_copy(state: &State) -> Result<Copy, String> {
    let setup = &state.tables.setup;
    let mut copy = Copy { values: setup.first_values.iter().map(|value| vec![*value]).collect() };
    let mut closed: Vec<(usize, Verdict)> = (0..state.progress.len())
        .filter_map(|t| outcome(state, t).map(|verdict| (t, verdict)))
        .collect();
    closed.sort_by_key(|(t, _)| (state.progress[*t].place, *t));
    for (t, verdict) in closed {
        judge_reads(state, &copy, t, verdict)?;
        if verdict == Verdict::Commit {
            for write in &state.transaction(t).writes {
                copy.values[write.key].push(write.value);
            }
        }
    }
    Ok(copy)
}

fn judge_reads(state: &State, copy: &Copy, t: usize, verdict: Verdict) -> Result<(), String> {
    let reads = &state.transaction(t).reads;
    let pairs = || reads.iter().zip(&state.progress[t].recorded);
    let versions_match = pairs()
        .all(|(key, recorded)| recorded.map(|item| item.version) == Some(copy.last(*key).version));
    let values_match = pairs().all(|(key, recorded)| *recorded == Some(copy.last(*key)));
    match (verdict, versions_match) {
        (Verdict::Commit, false) => Err(format!("transaction {t} commits on an old read")),
        (Verdict::Abort, true) => Err(format!("transaction {t} aborts on good reads")),
        (Verdict::Commit, true) if !values_match => {
            Err(format!("transaction {t} read a value that is not its version's"))
        }
        _ => Ok(()),
    }
}

/// The site and key of each replica.
fn replicas(state: &State) -> impl Iterator<Item = (usize, usize)> + '_ {
    let sites = state.tables.site_keys.iter().enumerate();
    sites.flat_map(|(s, keys)| keys.members().map(move |key| (s, key)))
}

/// Each replica holds for each key the value the copy gave to that version.
fn replicas_follow(state: &State, copy: &Copy) -> Result<(), String> {
    for (s, key) in replicas(state) {
        let item = state.item(s, key);
        if copy.value_of(key, item.version) != Some(item.value) {
            return Err(format!("site {s} holds {item:?} of key {key}, which the copy never held"));
        }
    }
    Ok(())
}

/// Every submitted transaction is closed at all its sites.
pub fn all_closed(state: &State) -> bool {
    state.progress.iter().enumerate().all(|(t, progress)| {
        progress.place == NO_PLACE || state.reach(t).sites & !progress.closed == 0
    })
}

fn replicas_are_last(state: &State, copy: &Copy) -> Result<(), String> {
    for (s, key) in replicas(state) {
        if state.item(s, key) != copy.last(key) {
            return Err(format!("all is closed, but site {s} lacks the last version of key {key}"));
        }
    }
    Ok(())
}

/// The steps that SETTLE has to take from a state reached from fresh.
pub fn steps_to_settle(state: &State) -> i64 {
    (0..state.progress.len()).map(|t| steps_of(state, t)).sum()
}

/// 2·|R| + |V|·(|R|−1) if global, 2·|R| if local, less what was done; 0 if not submitted.
fn steps_of(state: &State, t: usize) -> i64 {
    let progress = &state.progress[t];
    if progress.place == NO_PLACE {
        return 0;
    }
    let transaction = state.transaction(t);
    let keys: Vec<usize> = [transaction.reads.clone(), transaction.written_keys()].concat();
    let sites = holders_of_any(state, &keys);
    let voters = holders_of_any(state, &transaction.reads);
    let local = sites.iter().all(|s| keys.iter().all(|key| state.holds(*s, *key)));
    let carries = if local { 0 } else { voters.len() * (sites.len() - 1) };
    (2 * sites.len() + carries) as i64 - steps_done(state, t)
}

fn holders_of_any(state: &State, keys: &[usize]) -> Vec<usize> {
    (0..state.tables.sites()).filter(|s| keys.iter().any(|key| state.holds(*s, *key))).collect()
}

/// The DELIVER, CLOSE and CARRY already done on t.
fn steps_done(state: &State, t: usize) -> i64 {
    let progress = &state.progress[t];
    let carried: u32 = progress.carried.iter().map(|to| to.count_ones()).sum();
    i64::from(progress.delivered.count_ones() + progress.closed.count_ones() + carried)
}
