//! Files that stand exactly at a limit, or one past it.

use crate::machine::Step;
use crate::random::Random;
use crate::record::{file_of, Record, END, GROUP, KEYS, TXN};
use crate::sets::KeySet;
use crate::tables::{MAX_INPUT, MAX_KEYS};

/// The seed walks through the list.
pub fn file(seed: u64, random: &mut Random) -> Vec<u8> {
    LIMITS[(seed % LIMITS.len() as u64) as usize](random)
}

const LIMITS: &[fn(&mut Random) -> Vec<u8>] = &[
    // Keys
    |_| with_keys(1),
    |_| with_keys(64),
    |_| with_keys(65),
    |_| with_keys(0),
    |random| with_keys_body(random.range(1, 300), random),
    // Groups and sites
    |_| with_groups(&[1; 8]),
    |_| with_groups(&[1; 9]),
    |_| with_groups(&[2; 8]),
    |_| with_groups(&[16]),
    |_| with_groups(&[17]),
    |_| with_groups(&[0]),
    |_| with_groups(&[255]),
    |_| with_groups(&[15, 1]),
    |_| with_groups(&[15, 2]),
    |_| with_groups(&[16, 1]),
    |_| with_groups(&[3, 0]),
    |random| with_ninth_group(Record { tag: GROUP, body: random.bytes(9) }),
    |random| with_ninth_group(Record { tag: GROUP, body: random.bytes(8) }),
    // Masks
    |_| with_mask(2, 0),
    |_| with_mask(2, 1),
    |_| with_mask(2, 2),
    |_| with_mask(2, 3),
    |_| with_mask(2, 4),
    |_| with_mask(1, 1 << 63),
    |_| with_mask(63, KeySet::MAX),
    |_| with_mask(64, KeySet::MAX),
    |_| with_mask(64, KeySet::MAX >> 1),
    |_| unheld_key_and_long_end(),
    // Reads and writes of one transaction
    |_| with_lists(8, 0),
    |_| with_lists(9, 0),
    |_| with_lists(0, 8),
    |_| with_lists(0, 9),
    |_| with_lists(8, 8),
    |_| with_lists(9, 9),
    |_| with_lists(0, 0),
    |_| with_lists(255, 255),
    |_| with_transaction(&[0, 9], &[]),
    |_| with_transaction(&[0, 10], &[]),
    |_| with_transaction(&[], &[9]),
    |_| with_transaction(&[], &[10]),
    |_| with_transaction(&[255], &[]),
    |_| with_transaction(&[3, 3], &[]),
    |_| with_transaction(&[1, 3, 2, 3], &[4]),
    |_| with_transaction(&[], &[5, 5]),
    |_| with_transaction(&[5, 6], &[6, 5]),
    |_| with_transaction(&[4, 4, 10], &[]),
    |_| with_transaction(&[4, 4], &[10]),
    |_| with_transaction(&[0, 0, 1, 2, 3, 4, 5, 6, 7], &[]),
    // Transactions
    |_| with_transactions(0, None),
    |_| with_transactions(127, None),
    |_| with_transactions(128, None),
    |_| with_transactions(129, None),
    |_| with_transactions(128, Some(Record { tag: TXN, body: vec![] })),
    |_| with_transactions(128, Some(Record { tag: TXN, body: vec![2, 0, 0, 0] })),
    |_| with_transactions(128, Some(Record { tag: TXN, body: vec![2, 0, 0] })),
    |_| with_transactions(128, Some(Record { tag: GROUP, body: vec![1, 0, 0, 0, 0, 0, 0, 0, 1] })),
    // Bytes
    |_| of_size(MAX_INPUT),
    |_| of_size(MAX_INPUT + 1),
    |_| of_size(MAX_INPUT - 1),
    |random| random.bytes(MAX_INPUT),
    |random| random.bytes(MAX_INPUT + 1),
    |_| long_garbage_after_setup(MAX_INPUT),
    |_| long_garbage_after_setup(MAX_INPUT + 1),
];

fn values(count: usize) -> Vec<u32> {
    (0..count as u32).map(|key| 100 * (key + 1)).collect()
}

fn all_keys(count: usize) -> KeySet {
    KeySet::MAX.checked_shr((MAX_KEYS - count.min(MAX_KEYS)) as u32).unwrap_or(0)
}

/// KEYS, one group that holds all, the given records, END and a few steps.
fn around(keys: usize, middle: Vec<Record>) -> Vec<u8> {
    let mut records = vec![Record::keys(&values(keys)), Record::group(2, all_keys(keys))];
    records.extend(middle);
    ended(records)
}

fn ended(mut records: Vec<Record>) -> Vec<u8> {
    records.push(Record::end());
    let steps = [
        Step::Read { t: 0, i: 0, s: 0 },
        Step::Submit { t: 0 },
        Step::Deliver { s: 0 },
        Step::Settle,
        Step::Submit { t: 127 },
        Step::Settle,
    ];
    records.extend(steps.map(Record::step));
    file_of(&records)
}

fn with_keys(count: usize) -> Vec<u8> {
    around(count, vec![Record::transaction(&[0], &[(0, 7)])])
}

fn with_keys_body(length: usize, random: &mut Random) -> Vec<u8> {
    let keys = Record { tag: KEYS, body: random.bytes(length) };
    ended(vec![keys, Record::group(1, all_keys(length / 4))])
}

fn groups(counts: &[u8]) -> Vec<Record> {
    let mut records = vec![Record::keys(&values(2))];
    records.extend(counts.iter().map(|sites| Record::group(*sites, 3)));
    records
}

fn with_groups(counts: &[u8]) -> Vec<u8> {
    ended(groups(counts))
}

fn with_ninth_group(ninth: Record) -> Vec<u8> {
    let mut records = groups(&[1; 8]);
    records.push(ninth);
    ended(records)
}

fn with_mask(keys: usize, mask: KeySet) -> Vec<u8> {
    ended(vec![Record::keys(&values(keys)), Record::group(1, mask)])
}

/// The length of END is judged before the keys that nobody holds.
fn unheld_key_and_long_end() -> Vec<u8> {
    let end = Record { tag: END, body: vec![0] };
    file_of(&[Record::keys(&values(2)), Record::group(1, 1), end])
}

fn with_lists(r: usize, w: usize) -> Vec<u8> {
    let reads: Vec<u8> = (0..r).map(|key| key as u8).collect();
    let written: Vec<u8> = (0..w).map(|key| key as u8).collect();
    with_transaction(&reads, &written)
}

/// One transaction among ten keys.
fn with_transaction(reads: &[u8], written: &[u8]) -> Vec<u8> {
    let writes: Vec<(u8, u32)> = written.iter().map(|key| (*key, 7)).collect();
    around(10, vec![Record::transaction(reads, &writes)])
}

fn with_transactions(count: usize, last: Option<Record>) -> Vec<u8> {
    let mut middle = vec![Record::transaction(&[], &[(0, 7)]); count];
    middle.extend(last);
    around(1, middle)
}

fn smallest_setup() -> Vec<u8> {
    file_of(&[Record::keys(&values(1)), Record::group(1, 1), Record::end()])
}

/// A schedule of SETTLE and DELIVER that fills the file to the size.
fn of_size(size: usize) -> Vec<u8> {
    let mut out = smallest_setup();
    while (size - out.len()) % 3 != 0 {
        Record::step(Step::Deliver { s: 0 }).put(&mut out);
    }
    while out.len() < size {
        Record::step(Step::Settle).put(&mut out);
    }
    out
}

fn long_garbage_after_setup(size: usize) -> Vec<u8> {
    let mut out = smallest_setup();
    out.resize(size, 0);
    out
}
