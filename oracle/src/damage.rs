//! Valid files, damaged in every way that the table of file refusals knows.

use crate::generate;
use crate::random::Random;
use crate::record::{file_of, walk, Record, END, GROUP, HEADER, KEYS, SETTLE, TXN};

/// The seed walks through the list; some files are damaged twice.
pub fn file(seed: u64, random: &mut Random) -> Vec<u8> {
    let valid = generate::small(random);
    let damaged = DAMAGES[(seed % DAMAGES.len() as u64) as usize](walk(&valid), random);
    let records = walk(&damaged);
    let again = random.chance(25) && records.len() > 3;
    if again {
        random.pick(DAMAGES)(records, random)
    } else {
        damaged
    }
}

type Damage = fn(Vec<Record>, &mut Random) -> Vec<u8>;

const DAMAGES: &[Damage] = &[
    // Cuts
    |records, random| cut_in_record(records, 1, random),
    |records, random| cut_in_record(records, 2, random),
    |records, random| cut_in_record(records, 3, random),
    cut_body,
    cut_anywhere,
    cut_at_end_record,
    // Tags
    |records, random| wrong_tag(records, random.byte(), random),
    |records, random| wrong_tag(records, random.byte() % 32, random),
    known_wrong_tag,
    tag_past_table,
    swapped,
    doubled,
    dropped,
    // Lengths
    longer_body,
    shorter_body,
    empty_body,
    wrong_length_field,
    huge_length_field,
    // END
    without_end,
    end_twice,
    end_with_body,
    end_with_cut_body,
    end_first,
    |records, random| bytes_after_end(records, 1, random),
    |records, random| bytes_after_end(records, 2, random),
    |records, random| bytes_after_end(records, 3, random),
    |records, random| bytes_at_close(records, 1, random),
    |records, random| bytes_at_close(records, 2, random),
    |records, random| bytes_at_close(records, 9, random),
    // Numbers
    |records, random| changed_byte(records, GROUP, 0, random),
    |records, random| changed_byte(records, GROUP, 8, random),
    |records, random| changed_byte(records, TXN, 0, random),
    |records, random| changed_byte(records, TXN, 1, random),
    empty_transaction,
    key_twice,
    absent_key,
    unheld_key,
    // Noise
    flipped_bits,
    random_bytes,
    random_records,
    byte_inserted,
    byte_removed,
];

fn pick_record(records: &[Record], random: &mut Random) -> usize {
    random.below(records.len())
}

/// A record with the tag; any record if none has it.
fn pick_tagged(records: &[Record], tag: u8, random: &mut Random) -> usize {
    let tagged: Vec<usize> = (0..records.len()).filter(|at| records[*at].tag == tag).collect();
    if tagged.is_empty() {
        pick_record(records, random)
    } else {
        random.pick(&tagged)
    }
}

fn end_of(records: &[Record]) -> usize {
    records.iter().position(|record| record.tag == END).unwrap_or(0)
}

/// Ends the file some bytes into a record.
fn cut_in_record(mut records: Vec<Record>, bytes: usize, random: &mut Random) -> Vec<u8> {
    let at = pick_record(&records, random);
    let last = file_of(&records[at..=at]);
    records.truncate(at);
    let mut out = file_of(&records);
    out.extend(&last[..bytes]);
    out
}

fn cut_body(records: Vec<Record>, random: &mut Random) -> Vec<u8> {
    let tag = random.pick(&[KEYS, GROUP, TXN, SETTLE]);
    let at = pick_tagged(&records, tag, random);
    let start = file_of(&records[..at]).len();
    let mut out = file_of(&records);
    out.truncate(start + HEADER + random.below(records[at].body.len()));
    out
}

fn cut_anywhere(records: Vec<Record>, random: &mut Random) -> Vec<u8> {
    let mut out = file_of(&records);
    out.truncate(random.below(out.len()));
    out
}

/// Ends the file just before, just after, or within END.
fn cut_at_end_record(records: Vec<Record>, random: &mut Random) -> Vec<u8> {
    let start = file_of(&records[..end_of(&records)]).len();
    let mut out = file_of(&records);
    out.truncate(start + random.below(HEADER + 1));
    out
}

fn wrong_tag(mut records: Vec<Record>, tag: u8, random: &mut Random) -> Vec<u8> {
    let at = pick_record(&records, random);
    records[at].tag = tag;
    file_of(&records)
}

/// Another record's tag and body in place of one.
fn known_wrong_tag(mut records: Vec<Record>, random: &mut Random) -> Vec<u8> {
    let (at, other) = (pick_record(&records, random), pick_record(&records, random));
    records[at] = records[other].clone();
    file_of(&records)
}

fn tag_past_table(records: Vec<Record>, random: &mut Random) -> Vec<u8> {
    let tag = random.pick(&[0, 4, 14, 22, 31, 32, 33, 47, 48, 255]);
    wrong_tag(records, tag, random)
}

fn swapped(mut records: Vec<Record>, random: &mut Random) -> Vec<u8> {
    let (a, b) = (pick_record(&records, random), pick_record(&records, random));
    records.swap(a, b);
    file_of(&records)
}

fn doubled(mut records: Vec<Record>, random: &mut Random) -> Vec<u8> {
    let at = pick_record(&records, random);
    records.insert(at, records[at].clone());
    file_of(&records)
}

fn dropped(mut records: Vec<Record>, random: &mut Random) -> Vec<u8> {
    records.remove(pick_record(&records, random));
    file_of(&records)
}

fn longer_body(mut records: Vec<Record>, random: &mut Random) -> Vec<u8> {
    let at = pick_record(&records, random);
    let more = random.range(1, 5);
    records[at].body.extend(random.bytes(more));
    file_of(&records)
}

fn shorter_body(mut records: Vec<Record>, random: &mut Random) -> Vec<u8> {
    let at = pick_record(&records, random);
    let length = records[at].body.len();
    records[at].body.truncate(random.below(length));
    file_of(&records)
}

fn empty_body(mut records: Vec<Record>, random: &mut Random) -> Vec<u8> {
    let tag = random.pick(&[KEYS, GROUP, TXN]);
    let at = pick_tagged(&records, tag, random);
    records[at].body.clear();
    file_of(&records)
}

/// Changes only the length field, so that the walk runs out of step.
fn wrong_length_field(records: Vec<Record>, random: &mut Random) -> Vec<u8> {
    let at = pick_record(&records, random);
    let start = file_of(&records[..at]).len();
    let mut out = file_of(&records);
    out[start + 2] = out[start + 2].wrapping_add(random.pick(&[1, 2, 4, 255, 254, 252]));
    out
}

fn huge_length_field(records: Vec<Record>, random: &mut Random) -> Vec<u8> {
    let at = pick_record(&records, random);
    let start = file_of(&records[..at]).len();
    let mut out = file_of(&records);
    out[start + 1] = random.pick(&[1, 128, 255]);
    out
}

fn without_end(mut records: Vec<Record>, _: &mut Random) -> Vec<u8> {
    records.retain(|record| record.tag != END);
    file_of(&records)
}

fn end_twice(mut records: Vec<Record>, random: &mut Random) -> Vec<u8> {
    let after = random.range(end_of(&records) + 1, records.len());
    records.insert(after, Record::end());
    file_of(&records)
}

fn end_with_body(mut records: Vec<Record>, random: &mut Random) -> Vec<u8> {
    let end = end_of(&records);
    let length = random.range(1, 4);
    records[end].body = random.bytes(length);
    file_of(&records)
}

fn end_with_cut_body(mut records: Vec<Record>, random: &mut Random) -> Vec<u8> {
    let end = end_of(&records);
    records.truncate(end);
    let mut out = file_of(&records);
    out.extend([END, 0, random.range(1, 255) as u8]);
    out
}

fn end_first(mut records: Vec<Record>, random: &mut Random) -> Vec<u8> {
    let before = random.below(end_of(&records));
    records.insert(before, Record::end());
    file_of(&records)
}

fn bytes_after_end(records: Vec<Record>, count: usize, random: &mut Random) -> Vec<u8> {
    let after = end_of(&records) + 1;
    let mut out = file_of(&records[..after]);
    out.extend(random.bytes(count));
    out.extend(file_of(&records[after..]));
    out
}

fn bytes_at_close(records: Vec<Record>, count: usize, random: &mut Random) -> Vec<u8> {
    let mut out = file_of(&records);
    out.extend(random.bytes(count));
    out
}

/// Sets a byte of a tagged record's body to a number near a limit.
fn changed_byte(mut records: Vec<Record>, tag: u8, byte: usize, random: &mut Random) -> Vec<u8> {
    let at = pick_tagged(&records, tag, random);
    let number = random.pick(&[0, 1, 2, 3, 8, 9, 16, 17, 64, 128, 255]);
    if let Some(old) = records[at].body.get_mut(byte) {
        *old = number;
    }
    file_of(&records)
}

fn empty_transaction(mut records: Vec<Record>, _: &mut Random) -> Vec<u8> {
    records.insert(end_of(&records), Record::transaction(&[], &[]));
    file_of(&records)
}

fn key_twice(mut records: Vec<Record>, random: &mut Random) -> Vec<u8> {
    let twice = if random.chance(50) {
        Record::transaction(&[0, 0], &[])
    } else {
        Record::transaction(&[0], &[(0, 1), (0, 2)])
    };
    records.insert(end_of(&records), twice);
    file_of(&records)
}

fn absent_key(mut records: Vec<Record>, random: &mut Random) -> Vec<u8> {
    let absent = (records[0].body.len() / 4) as u8;
    let key = random.pick(&[absent, 64, 255]);
    let absent = if random.chance(50) {
        Record::transaction(&[0, key], &[(0, 1)])
    } else {
        Record::transaction(&[0, 0], &[(key, 1)])
    };
    records.insert(end_of(&records), absent);
    file_of(&records)
}

/// Takes key 0 from every group's mask, or adds a key that none holds.
fn unheld_key(mut records: Vec<Record>, random: &mut Random) -> Vec<u8> {
    if random.chance(50) {
        records[0].body.extend([0, 0, 0, 1]);
    } else {
        for group in records.iter_mut().filter(|record| record.tag == GROUP) {
            if let Some(low) = group.body.get_mut(8) {
                *low &= !1;
            }
        }
    }
    file_of(&records)
}

fn flipped_bits(records: Vec<Record>, random: &mut Random) -> Vec<u8> {
    let mut out = file_of(&records);
    for _ in 0..random.range(1, 4) {
        let at = random.below(out.len());
        out[at] ^= 1 << random.below(8);
    }
    out
}

fn random_bytes(_: Vec<Record>, random: &mut Random) -> Vec<u8> {
    let length = random.below(80);
    random.bytes(length)
}

/// A valid start, then records of known tags with random bodies.
fn random_records(mut records: Vec<Record>, random: &mut Random) -> Vec<u8> {
    records.truncate(random.below(records.len()));
    for _ in 0..random.range(1, 6) {
        let tag = random.pick(&[1, 2, 3, 3, 3, 15, 16, 17, 18, 19, 20, 21]);
        let length = random.pick(&[0, 1, 2, 3, 4, 7, 8, 9]);
        let body = (0..length).map(|_| random.below(5) as u8).collect();
        records.push(Record { tag, body });
    }
    file_of(&records)
}

fn byte_inserted(records: Vec<Record>, random: &mut Random) -> Vec<u8> {
    let mut out = file_of(&records);
    out.insert(random.below(out.len() + 1), random.byte());
    out
}

fn byte_removed(records: Vec<Record>, random: &mut Random) -> Vec<u8> {
    let mut out = file_of(&records);
    out.remove(random.below(out.len()));
    out
}
