//! `check`: many small files, with every demand tested after every step.

use std::collections::BTreeMap;
use std::fmt;

use crate::answers;
use crate::demands;
use crate::generate::{self, Kind};
use crate::machine::{Answer, Step};
use crate::mistakes::Mistake;
use crate::odd;
use crate::random::Random;
use crate::reader;
use crate::schedule::any_step;
use crate::settle;
use crate::state::{State, Verdict};

/// What was tested.
#[derive(Default)]
struct Tally {
    files: u64,
    steps: u64,
    accepted: u64,
    /// By number.
    refused: BTreeMap<u8, u64>,
    settles: u64,
    commits: u64,
    aborts: u64,
    odd_states: u64,
}

impl Tally {
    fn count(&mut self, answer: Answer) {
        self.steps += 1;
        match answer.number {
            0 => self.accepted += 1,
            number => *self.refused.entry(number).or_default() += 1,
        }
    }

    fn count_outcomes(&mut self, state: &State) {
        for t in 0..state.progress.len() {
            match demands::outcome(state, t) {
                Some(Verdict::Commit) => self.commits += 1,
                Some(Verdict::Abort) => self.aborts += 1,
                None => {}
            }
        }
    }
}

impl fmt::Display for Tally {
    fn fmt(&self, out: &mut fmt::Formatter) -> fmt::Result {
        write!(
            out,
            "files {} steps {} accepted {} refused",
            self.files, self.steps, self.accepted
        )?;
        for (number, count) in &self.refused {
            write!(out, " {number}:{count}")?;
        }
        write!(out, " settles {} commits {} aborts {}", self.settles, self.commits, self.aborts)?;
        write!(out, " odd {}", self.odd_states)
    }
}

/// What to test, and on which machine.
#[derive(Clone, Copy, Default)]
pub struct Options {
    pub mistake: Option<Mistake>,
    /// Only demand 3 and the promises of SETTLE, no single answers.
    pub demands_only: bool,
}

pub fn check(count: u64, first_seed: u64, options: Options) -> Result<String, String> {
    let mut tally = Tally::default();
    for seed in first_seed..first_seed + count {
        let kind = if seed % 2 == 0 { Kind::Small } else { Kind::Contended };
        let name = generate::kind_name(kind);
        Check { options, tally: &mut tally, random: Random::new(seed.rotate_left(32)) }
            .file(&generate::file(kind, seed))
            .map_err(|fault| format!("{name} {seed}: {fault}"))?;
        Check { options, tally: &mut tally, random: Random::new(!seed) }
            .odd_states()
            .map_err(|fault| format!("odd state {seed}: {fault}"))?;
    }
    Ok(format!("{tally}\nok"))
}

struct Check<'a> {
    options: Options,
    tally: &'a mut Tally,
    random: Random,
}

impl Check<'_> {
    fn file(&mut self, bytes: &[u8]) -> Result<(), String> {
        let file = reader::read_file(bytes).map_err(|refusal| format!("{refusal:?}"))?;
        let mut state = State { mistake: self.options.mistake, ..State::fresh(file.setup) };
        self.tally.files += 1;
        demands::hold(&state)?;
        for (index, step) in file.schedule.into_iter().enumerate() {
            self.step(&mut state, step).map_err(|fault| format!("step {index}: {fault}"))?;
        }
        self.settle(&state).map_err(|fault| format!("at the end: {fault}"))?;
        self.tally.count_outcomes(&state);
        Ok(())
    }

    fn step(&mut self, state: &mut State, step: Step) -> Result<(), String> {
        let before = state.clone();
        let answer = state.step(step, settle::plain);
        self.answer(&before, step, answer, state)?;
        demands::hold(state)?;
        if step == Step::Settle {
            self.settle(&before)
        } else {
            Ok(())
        }
    }

    fn answer(
        &mut self,
        before: &State,
        step: Step,
        answer: Answer,
        after: &State,
    ) -> Result<(), String> {
        self.tally.count(answer);
        if self.options.demands_only {
            Ok(())
        } else {
            answers::judge(before, step, answer, after)
        }
    }

    fn settle(&mut self, before: &State) -> Result<(), String> {
        self.tally.settles += 1;
        check_settle(before, &mut self.random)
    }

    /// On an odd state both SETTLEs agree and every step answers; on an unusable one it is 10.
    fn odd_states(&mut self) -> Result<(), String> {
        let mistake = self.options.mistake;
        let odd = State { mistake, ..odd::odd_state(&mut self.random) };
        let unusable = State { mistake, ..odd::unusable_state(&mut self.random) };
        self.tally.odd_states += 1;
        if !odd.is_usable() || unusable.is_usable() {
            return Err("an odd state is not usable, or an unusable one is".to_string());
        }
        check_fast(&odd)?;
        check_fast(&unusable)?;
        self.any_steps(odd)?;
        self.any_steps(unusable)
    }

    fn any_steps(&mut self, mut state: State) -> Result<(), String> {
        for _ in 0..8 {
            let settles = self.random.chance(5);
            let step = if settles { Step::Settle } else { any_step(&state, &mut self.random) };
            let before = state.clone();
            let answer = state.step(step, settle::fast);
            self.answer(&before, step, answer, &state)?;
        }
        Ok(())
    }
}

/// From a state reached from fresh: the count is the sum, nothing is left to do, and any
/// other order comes to the same end.
fn check_settle(before: &State, random: &mut Random) -> Result<(), String> {
    let mut settled = before.clone();
    let answer = settled.step(Step::Settle, settle::plain);
    let steps = demands::steps_to_settle(before);
    if (answer.number, i64::from(answer.first), answer.second) != (0, steps, 0) {
        return Err(format!("SETTLE answers {answer:?}, but the sum is {steps}"));
    }
    if let Some(step) = candidates(&settled).into_iter().find(|step| settled.accepts(*step)) {
        return Err(format!("{step:?} is still accepted after SETTLE"));
    }
    if !demands::all_closed(&settled) {
        return Err("SETTLE leaves a submitted transaction open".to_string());
    }
    demands::hold(&settled)?;
    let (finished, taken) = finish_in_random_order(before, random)?;
    if finished != settled || taken != steps {
        return Err(format!("another order of {taken} steps ends otherwise than SETTLE"));
    }
    check_fast(before)
}

/// The plain and the fast SETTLE give the same state and count. A machine with a mistake is
/// left to the demands, unless the mistake is the fast SETTLE's own.
fn check_fast(before: &State) -> Result<(), String> {
    if before.mistake.is_some_and(|mistake| !mistake.is_of_fast_settle()) {
        return Ok(());
    }
    let (mut plain, mut fast) = (before.clone(), before.clone());
    let plain_answer = plain.step(Step::Settle, settle::plain);
    let fast_answer = fast.step(Step::Settle, settle::fast);
    if plain_answer != fast_answer || plain != fast {
        return Err(format!("plain SETTLE {plain_answer:?} and fast {fast_answer:?} differ"));
    }
    Ok(())
}

/// Every CLOSE, DELIVER and CARRY that could be tried.
fn candidates(state: &State) -> Vec<Step> {
    let sites = state.tables.sites();
    let mut steps: Vec<Step> = (0..sites).map(|s| Step::Deliver { s }).collect();
    for t in 0..state.progress.len() {
        for s in 0..sites {
            steps.push(Step::Close { t, s });
            steps.extend((0..sites).map(|to| Step::Carry { t, from: s, to }));
        }
    }
    steps
}

/// Takes acceptable steps in random order until there is none; gives their number.
fn finish_in_random_order(state: &State, random: &mut Random) -> Result<(State, i64), String> {
    let mut state = state.clone();
    let mut steps = candidates(&state);
    let mut taken = 0;
    while let Some(at) = find_acceptable(&state, &steps, random) {
        state.step(steps[at], settle::plain);
        taken += 1;
        if !matches!(steps[at], Step::Deliver { .. }) {
            steps.swap_remove(at);
        }
    }
    demands::hold(&state)?;
    Ok((state, taken))
}

/// The first acceptable one from a random start on, all the way round.
fn find_acceptable(state: &State, steps: &[Step], random: &mut Random) -> Option<usize> {
    let start = random.below(steps.len());
    (start..steps.len()).chain(0..start).find(|at| state.accepts(steps[*at]))
}
