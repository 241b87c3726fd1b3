//! The listing of a file: STEP, TXN and ITEM lines, or the one FILE line.

use std::fmt::Write;

use crate::machine::{Answer, Settle, Step};
use crate::reader;
use crate::sets::Set;
use crate::state::State;

pub fn listing(file: &[u8], settle: Settle) -> String {
    match reader::read_file(file) {
        Err(refusal) => format!("FILE {} {}\n", refusal.number, refusal.offset),
        Ok(file) => run(State::fresh(file.setup), &file.schedule, settle),
    }
}

fn run(mut state: State, schedule: &[Step], settle: Settle) -> String {
    let mut out = String::new();
    for (index, step) in schedule.iter().enumerate() {
        let Answer { number, first, second } = state.step(*step, settle);
        line(&mut out, "STEP", &[index as u32, u32::from(number), first, second]);
    }
    list_transactions(&mut out, &state);
    list_items(&mut out, &state);
    out
}

fn list_transactions(out: &mut String, state: &State) {
    for (t, progress) in state.progress.iter().enumerate() {
        let lowest_closed = progress.closed.first();
        let verdict = lowest_closed.and_then(|s| progress.outcome(s)).map_or(0, |v| v as u32);
        line(out, "TXN", &[t as u32, progress.place.0, verdict]);
    }
}

fn list_items(out: &mut String, state: &State) {
    for (s, keys) in state.tables.site_keys.iter().enumerate() {
        for key in keys.members() {
            let item = state.item(s, key);
            line(out, "ITEM", &[s as u32, key as u32, item.version.0, item.value]);
        }
    }
}

fn line(out: &mut String, word: &str, numbers: &[u32]) {
    out.push_str(word);
    for number in numbers {
        write!(out, " {number}").expect("a string takes all");
    }
    out.push('\n');
}
