//! A file's records in a readable form.

use crate::reader;
use crate::record::{self, big_endian, length_is_right, Record, HEADER};
use crate::sets::{KeySet, Set};

pub fn show(file: &[u8]) -> String {
    let mut out = String::new();
    let mut offset = 0;
    for record in record::walk(file) {
        out.push_str(&format!("{offset:>6}  {}\n", describe(&record)));
        offset += HEADER + record.body.len();
    }
    if offset < file.len() {
        out.push_str(&format!("{offset:>6}  cut: {}\n", hex(&file[offset..])));
    }
    if let Err(refusal) = reader::read_file(file) {
        out.push_str(&format!("refused {} at {}\n", refusal.number, refusal.offset));
    }
    out
}

fn hex(bytes: &[u8]) -> String {
    bytes.iter().map(|byte| format!("{byte:02X}")).collect()
}

fn describe(record: &Record) -> String {
    let Record { tag, body } = record;
    if !length_is_right(*tag, body) {
        return format!("tag {tag:02X}, length {}: {}", body.len(), hex(body));
    }
    match *tag {
        record::KEYS => {
            let values: Vec<u64> = body.chunks(4).map(big_endian).collect();
            format!("KEYS first values {values:?}")
        }
        record::GROUP => {
            let keys: KeySet = big_endian(&body[1..]);
            let keys: Vec<usize> = keys.members().collect();
            format!("GROUP sites {}, keys {keys:?}", body[0])
        }
        record::TXN => describe_transaction(body),
        record::END => "END".to_string(),
        _ => format!("{:?}", reader::step(*tag, body)),
    }
}

fn describe_transaction(body: &[u8]) -> String {
    let r = usize::from(body[0]);
    let pairs = body[2 + r..].chunks(5);
    let writes: Vec<String> =
        pairs.map(|pair| format!("{}:={}", pair[0], big_endian(&pair[1..]))).collect();
    format!("TXN reads {:?}, writes [{}]", &body[1..1 + r], writes.join(", "))
}
