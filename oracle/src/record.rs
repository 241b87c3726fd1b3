//! Records: a tag, a two-byte body length, the body. Numbers are big-endian.

use crate::machine::Step;
use crate::tables::Setup;

pub const KEYS: u8 = 0x01;
pub const GROUP: u8 = 0x02;
pub const TXN: u8 = 0x03;
pub const END: u8 = 0x0F;
pub const READ: u8 = 0x10;
pub const SUBMIT: u8 = 0x11;
pub const DELIVER: u8 = 0x12;
pub const CARRY: u8 = 0x13;
pub const CLOSE: u8 = 0x14;
pub const SETTLE: u8 = 0x15;

/// Tag and body length.
pub const HEADER: usize = 3;

#[derive(Clone, Copy)]
enum LengthRule {
    /// No record has this tag.
    NoRecord,
    Exactly(usize),
    /// 4 to 256, a multiple of 4.
    FirstValues,
    /// 2 + r + 5w, with r and w taken from the body.
    ReadsAndWrites,
}

/// Each tag's length rule.
const LENGTH_RULES: [LengthRule; 32] = {
    let mut rules = [LengthRule::NoRecord; 32];
    rules[KEYS as usize] = LengthRule::FirstValues;
    rules[GROUP as usize] = LengthRule::Exactly(9);
    rules[TXN as usize] = LengthRule::ReadsAndWrites;
    rules[END as usize] = LengthRule::Exactly(0);
    rules[READ as usize] = LengthRule::Exactly(3);
    rules[SUBMIT as usize] = LengthRule::Exactly(1);
    rules[DELIVER as usize] = LengthRule::Exactly(1);
    rules[CARRY as usize] = LengthRule::Exactly(3);
    rules[CLOSE as usize] = LengthRule::Exactly(2);
    rules[SETTLE as usize] = LengthRule::Exactly(0);
    rules
};

/// Has the body the length that its tag asks for?
pub fn length_is_right(tag: u8, body: &[u8]) -> bool {
    match LENGTH_RULES.get(usize::from(tag)) {
        Some(LengthRule::Exactly(length)) => body.len() == *length,
        Some(LengthRule::FirstValues) => (4..=256).contains(&body.len()) && body.len() % 4 == 0,
        Some(LengthRule::ReadsAndWrites) => reads_and_writes_fit(body),
        Some(LengthRule::NoRecord) | None => false,
    }
}

fn reads_and_writes_fit(body: &[u8]) -> bool {
    let Some(r) = body.first().map(|byte| usize::from(*byte)) else {
        return false;
    };
    let Some(w) = body.get(1 + r).map(|byte| usize::from(*byte)) else {
        return false;
    };
    body.len() == 2 + r + 5 * w
}

pub fn big_endian(bytes: &[u8]) -> u64 {
    bytes.iter().fold(0, |number, byte| number << 8 | u64::from(*byte))
}

#[derive(Clone, Debug, PartialEq, Eq)]
pub struct Record {
    pub tag: u8,
    pub body: Vec<u8>,
}

impl Record {
    pub fn keys(first_values: &[u32]) -> Record {
        let body = first_values.iter().flat_map(|value| value.to_be_bytes()).collect();
        Record { tag: KEYS, body }
    }

    pub fn group(sites: u8, keys: u64) -> Record {
        let mut body = vec![sites];
        body.extend(keys.to_be_bytes());
        Record { tag: GROUP, body }
    }

    pub fn transaction(reads: &[u8], writes: &[(u8, u32)]) -> Record {
        let mut body = vec![reads.len() as u8];
        body.extend(reads);
        body.push(writes.len() as u8);
        for (key, value) in writes {
            body.push(*key);
            body.extend(value.to_be_bytes());
        }
        Record { tag: TXN, body }
    }

    pub fn end() -> Record {
        Record { tag: END, body: vec![] }
    }

    pub fn step(step: Step) -> Record {
        let (tag, numbers) = match step {
            Step::Read { t, i, s } => (READ, vec![t, i, s]),
            Step::Submit { t } => (SUBMIT, vec![t]),
            Step::Deliver { s } => (DELIVER, vec![s]),
            Step::Carry { t, from, to } => (CARRY, vec![t, from, to]),
            Step::Close { t, s } => (CLOSE, vec![t, s]),
            Step::Settle => (SETTLE, vec![]),
        };
        Record { tag, body: numbers.into_iter().map(|number| number as u8).collect() }
    }

    pub fn put(&self, out: &mut Vec<u8>) {
        out.push(self.tag);
        out.extend((self.body.len() as u16).to_be_bytes());
        out.extend(&self.body);
    }
}

/// The records of a setup, END included.
pub fn setup_records(setup: &Setup) -> Vec<Record> {
    let mut records = vec![Record::keys(&setup.first_values)];
    records.extend(setup.groups.iter().map(|group| Record::group(group.sites as u8, group.keys)));
    records.extend(setup.transactions.iter().map(|txn| {
        let reads: Vec<u8> = txn.reads.iter().map(|key| *key as u8).collect();
        let writes: Vec<(u8, u32)> =
            txn.writes.iter().map(|write| (write.key as u8, write.value)).collect();
        Record::transaction(&reads, &writes)
    }));
    records.push(Record::end());
    records
}

pub fn file_of(records: &[Record]) -> Vec<u8> {
    let mut out = Vec::new();
    for record in records {
        record.put(&mut out);
    }
    out
}

/// The whole records at the start of a file, found by walking the lengths.
pub fn walk(file: &[u8]) -> Vec<Record> {
    let mut records = Vec::new();
    let mut rest = file;
    while let Some((tag, body)) = first_record(rest) {
        records.push(Record { tag, body: body.to_vec() });
        rest = &rest[HEADER + body.len()..];
    }
    records
}

/// Tag and body of the record that starts here, unless it is cut.
pub fn first_record(bytes: &[u8]) -> Option<(u8, &[u8])> {
    let header = bytes.get(..HEADER)?;
    let length = big_endian(&header[1..]) as usize;
    Some((header[0], bytes.get(HEADER..HEADER + length)?))
}
