//! The reader: a file is cut in setup and schedule, then judged record by record.

use crate::machine::{ensure, Step};
use crate::record::{big_endian, first_record, length_is_right, HEADER};
use crate::record::{CARRY, CLOSE, DELIVER, END, GROUP, KEYS, READ, SETTLE, SUBMIT, TXN};
use crate::sets::KeySet;
use crate::tables::{has_twice, Group, Setup, Transaction, Write};
use crate::tables::{MAX_GROUPS, MAX_INPUT, MAX_KEYS, MAX_LIST, MAX_SITES, MAX_TRANSACTIONS};

pub const TOO_LONG: u8 = 1;
pub const CUT: u8 = 2;
pub const WRONG_TAG: u8 = 3;
pub const WRONG_LENGTH: u8 = 4;
pub const OUT_OF_RANGE: u8 = 5;
pub const KEY_TWICE: u8 = 6;
pub const KEY_UNHELD: u8 = 7;

/// A file refusal; the offset is the offending record's, setup and schedule joined.
#[derive(Clone, Copy, Debug, PartialEq, Eq)]
pub struct Refusal {
    pub number: u8,
    pub offset: usize,
}

#[derive(Debug)]
pub struct File {
    pub setup: Setup,
    pub schedule: Vec<Step>,
}

pub fn read_file(file: &[u8]) -> Result<File, Refusal> {
    let (setup, schedule) = cut(file);
    read(setup, schedule)
}

/// Setup and schedule, cut after the first END met by walking the lengths.
pub fn cut(file: &[u8]) -> (&[u8], &[u8]) {
    let mut position = 0;
    while let Some((tag, body)) = first_record(&file[position..]) {
        position += HEADER + body.len();
        if tag == END {
            return file.split_at(position);
        }
    }
    (file, &[])
}

pub fn read(setup: &[u8], schedule: &[u8]) -> Result<File, Refusal> {
    if setup.len() + schedule.len() > MAX_INPUT {
        return Err(Refusal { number: TOO_LONG, offset: 0 });
    }
    let read_setup = read_setup(setup)?;
    let read_schedule = read_schedule(schedule)
        .map_err(|refusal| Refusal { offset: setup.len() + refusal.offset, ..refusal })?;
    Ok(File { setup: read_setup, schedule: read_schedule })
}

/// The records of one part, from a position on.
struct Reader<'a> {
    part: &'a [u8],
    position: usize,
}

struct Found<'a> {
    tag: u8,
    body: &'a [u8],
    start: usize,
}

impl Found<'_> {
    fn refuse(&self, number: u8) -> Refusal {
        Refusal { number, offset: self.start }
    }
}

impl<'a> Reader<'a> {
    fn new(part: &'a [u8]) -> Reader<'a> {
        Reader { part, position: 0 }
    }

    fn at_end(&self) -> bool {
        self.position == self.part.len()
    }

    fn refuse(&self, number: u8) -> Refusal {
        Refusal { number, offset: self.position }
    }

    /// The next record, judged in the order header, tag, body, length.
    fn next(&mut self, allowed: impl Fn(u8) -> bool) -> Result<Found<'a>, Refusal> {
        let rest = &self.part[self.position..];
        if rest.len() < HEADER {
            return Err(self.refuse(CUT));
        }
        if !allowed(rest[0]) {
            return Err(self.refuse(WRONG_TAG));
        }
        let Some((tag, body)) = first_record(rest) else {
            return Err(self.refuse(CUT));
        };
        if !length_is_right(tag, body) {
            return Err(self.refuse(WRONG_LENGTH));
        }
        let start = self.position;
        self.position += HEADER + body.len();
        Ok(Found { tag, body, start })
    }
}

fn read_setup(part: &[u8]) -> Result<Setup, Refusal> {
    let mut reader = Reader::new(part);
    let mut setup = Setup::default();
    loop {
        let found = reader.next(|tag| allowed_in_setup(tag, &setup))?;
        match found.tag {
            KEYS => setup.first_values = first_values(found.body),
            GROUP => take_group(&mut setup, found.body).map_err(|no| found.refuse(no))?,
            TXN => take_transaction(&mut setup, found.body).map_err(|no| found.refuse(no))?,
            _ => {
                judge_end(&setup).map_err(|no| found.refuse(no))?;
                break;
            }
        }
    }
    if reader.at_end() {
        Ok(setup)
    } else {
        Err(reader.refuse(WRONG_TAG))
    }
}

/// One KEYS, one or more GROUP, any number of TXN, END.
fn allowed_in_setup(tag: u8, setup: &Setup) -> bool {
    let keys_read = !setup.first_values.is_empty();
    match tag {
        KEYS => !keys_read,
        GROUP => keys_read && setup.transactions.is_empty(),
        TXN | END => !setup.groups.is_empty(),
        _ => false,
    }
}

fn first_values(body: &[u8]) -> Vec<u32> {
    body.chunks(4).map(|value| big_endian(value) as u32).collect()
}

fn take_group(setup: &mut Setup, body: &[u8]) -> Result<(), u8> {
    let group = Group { sites: usize::from(body[0]), keys: big_endian(&body[1..]) };
    let sites_before: usize = setup.groups.iter().map(|group| group.sites).sum();
    ensure(setup.groups.len() < MAX_GROUPS, OUT_OF_RANGE)?;
    ensure(group.sites > 0 && sites_before + group.sites <= MAX_SITES, OUT_OF_RANGE)?;
    ensure(group.keys != 0 && group.keys & !existing_keys(setup) == 0, OUT_OF_RANGE)?;
    setup.groups.push(group);
    Ok(())
}

fn existing_keys(setup: &Setup) -> KeySet {
    KeySet::MAX >> (MAX_KEYS - setup.first_values.len())
}

fn take_transaction(setup: &mut Setup, body: &[u8]) -> Result<(), u8> {
    let transaction = transaction(body);
    let written = transaction.written_keys();
    let (r, w) = (transaction.reads.len(), written.len());
    let keys = setup.first_values.len();
    ensure(setup.transactions.len() < MAX_TRANSACTIONS, OUT_OF_RANGE)?;
    ensure(r <= MAX_LIST && w <= MAX_LIST && r + w > 0, OUT_OF_RANGE)?;
    ensure(transaction.reads.iter().chain(&written).all(|key| *key < keys), OUT_OF_RANGE)?;
    ensure(!has_twice(&transaction.reads) && !has_twice(&written), KEY_TWICE)?;
    setup.transactions.push(transaction);
    Ok(())
}

/// A TXN body of the right length.
fn transaction(body: &[u8]) -> Transaction {
    let r = usize::from(body[0]);
    let reads = body[1..1 + r].iter().map(|key| usize::from(*key)).collect();
    let pairs = body[2 + r..].chunks(5);
    let writes = pairs
        .map(|pair| Write { key: usize::from(pair[0]), value: big_endian(&pair[1..]) as u32 })
        .collect();
    Transaction { reads, writes }
}

fn judge_end(setup: &Setup) -> Result<(), u8> {
    let held = setup.groups.iter().fold(0, |held, group| held | group.keys);
    ensure(held == existing_keys(setup), KEY_UNHELD)
}

fn read_schedule(part: &[u8]) -> Result<Vec<Step>, Refusal> {
    let mut reader = Reader::new(part);
    let mut steps = Vec::new();
    while !reader.at_end() {
        let found = reader.next(|tag| (READ..=SETTLE).contains(&tag))?;
        steps.push(step(found.tag, found.body));
    }
    Ok(steps)
}

/// The step of a schedule record whose tag and length are right.
pub fn step(tag: u8, body: &[u8]) -> Step {
    let number = |at: usize| usize::from(body[at]);
    match tag {
        READ => Step::Read { t: number(0), i: number(1), s: number(2) },
        SUBMIT => Step::Submit { t: number(0) },
        DELIVER => Step::Deliver { s: number(0) },
        CARRY => Step::Carry { t: number(0), from: number(1), to: number(2) },
        CLOSE => Step::Close { t: number(0), s: number(1) },
        SETTLE => Step::Settle,
        _ => unreachable!("only schedule tags come here"),
    }
}
