//! Random schedules, made by running them: a share of the steps is chosen so that it is
//! accepted, the rest is anything.

use crate::machine::Step;
use crate::random::Random;
use crate::record::{file_of, setup_records, Record, HEADER};
use crate::sets::{Set, SiteSet};
use crate::settle;
use crate::state::State;
use crate::tables::Setup;

/// How the steps of a schedule are chosen.
pub struct Habit {
    /// Percent of the steps that should be accepted.
    pub likely: usize,
    /// Percent of SETTLE among all steps.
    pub settle: usize,
    /// Weights of READ, SUBMIT, DELIVER, CARRY, CLOSE.
    pub weights: [usize; 5],
}

pub struct Schedule {
    pub state: State,
    pub records: Vec<Record>,
    pub size: usize,
}

/// Weights for steps that are refused late: mostly DELIVER and CLOSE.
const LATE_REFUSALS: [usize; 5] = [5, 10, 25, 10, 50];

/// Guesses at a step that would be accepted, before anything is taken.
const GUESSES: usize = 10;

impl Schedule {
    pub fn new(setup: Setup) -> Schedule {
        let records = setup_records(&setup);
        let size = file_of(&records).len();
        Schedule { state: State::fresh(setup), records, size }
    }

    pub fn add(&mut self, step: Step) {
        let record = Record::step(step);
        self.size += HEADER + record.body.len();
        self.records.push(record);
        self.state.step(step, settle::fast);
    }

    pub fn add_chosen(&mut self, habit: &Habit, random: &mut Random) {
        let step = if random.chance(habit.settle) {
            Step::Settle
        } else if random.chance(habit.likely) {
            self.likely_step(&habit.weights, random)
        } else {
            self.other_step(random)
        };
        self.add(step);
    }

    pub fn finish(self) -> Vec<u8> {
        file_of(&self.records)
    }

    fn likely_step(&self, weights: &[usize; 5], random: &mut Random) -> Step {
        for _ in 0..GUESSES {
            let step = guess(&self.state, random, weights);
            if self.state.accepts(step) {
                return step;
            }
        }
        self.other_step(random)
    }

    /// A step that may be refused for one of the later reasons, or for any.
    fn other_step(&self, random: &mut Random) -> Step {
        if random.chance(50) {
            guess(&self.state, random, &LATE_REFUSALS)
        } else {
            any_step(&self.state, random)
        }
    }
}

/// A member of the set; a random site if there is none.
fn site_of(set: SiteSet, sites: usize, random: &mut Random) -> usize {
    match set.count_ones() as usize {
        0 => random.below(sites),
        count => set.members().nth(random.below(count)).unwrap_or(0),
    }
}

/// A step that has a good chance.
fn guess(state: &State, random: &mut Random, weights: &[usize; 5]) -> Step {
    let sites = state.tables.sites();
    let t = random.below(state.progress.len());
    let s = random.below(sites);
    match (random.weighted(weights), state.progress.get(t)) {
        (0, Some(_)) => Step::Read { t, i: random.below(read_count(state, t)), s },
        (1, Some(_)) => Step::Submit { t },
        (3, Some(progress)) => {
            let from = site_of(progress.voted, sites, random);
            Step::Carry { t, from, to: site_of(state.reach(t).sites, sites, random) }
        }
        (4, Some(_)) => {
            let queue = state.queue(s);
            Step::Close { t: queue.get(random.below(queue.len())).copied().unwrap_or(t), s }
        }
        _ => Step::Deliver { s },
    }
}

fn read_count(state: &State, t: usize) -> usize {
    state.tables.setup.transactions.get(t).map_or(0, |transaction| transaction.reads.len())
}

/// Any single step, with numbers in range and out of range.
pub fn any_step(state: &State, random: &mut Random) -> Step {
    let t = number_near(state.progress.len(), random);
    let s = number_near(state.tables.sites(), random);
    match random.below(5) {
        0 => Step::Read { t, i: number_near(read_count(state, t), random), s },
        1 => Step::Submit { t },
        2 => Step::Deliver { s },
        3 => Step::Carry { t, from: s, to: number_near(state.tables.sites(), random) },
        _ => Step::Close { t, s },
    }
}

/// Mostly below the count, at times the count itself or anything up to 255.
fn number_near(count: usize, random: &mut Random) -> usize {
    match random.below(12) {
        0 => count.min(255),
        1 => random.below(256),
        _ => random.below(count),
    }
}
