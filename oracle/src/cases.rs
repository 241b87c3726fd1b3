//! Document 01's cases. The lettered ones stand in files, each with the file's bytes and the
//! listing that the paper's words ask for; the others are made here.

use crate::listing::listing;
use crate::machine::Step;
use crate::reader;
use crate::record::{file_of, Record};
use crate::settle;
use crate::state::State;
use crate::tables::MAX_INPUT;

const LETTERED: [(&str, &str); 11] = [
    ("A", include_str!("../cases/A.txt")),
    ("B", include_str!("../cases/B.txt")),
    ("C", include_str!("../cases/C.txt")),
    ("D", include_str!("../cases/D.txt")),
    ("E", include_str!("../cases/E.txt")),
    ("F", include_str!("../cases/F.txt")),
    ("G", include_str!("../cases/G.txt")),
    ("H", include_str!("../cases/H.txt")),
    ("I", include_str!("../cases/I.txt")),
    ("J", include_str!("../cases/J.txt")),
    ("K", include_str!("../cases/K.txt")),
];

pub fn run() -> Result<String, String> {
    let mut lines = Vec::new();
    for (letter, text) in LETTERED {
        let (file, expected) = parse(text)?;
        compare(letter, &file, &expected, &mut lines)?;
        if letter == "G" {
            all_three_sites_agree(&file)?;
        }
    }
    lines.push(format!("{} cases ok", LETTERED.len()));
    let run = run_cases();
    for (name, file, expected) in &run {
        compare(name, file, expected, &mut lines)?;
    }
    lines.push(format!("{} run ok", run.len()));
    parts_handed_in_otherwise()?;
    lines.push("parts handed in otherwise ok".to_string());
    Ok(lines.join("\n"))
}

fn compare(name: &str, file: &[u8], expected: &str, done: &mut Vec<String>) -> Result<(), String> {
    for settle in [settle::plain, settle::fast] {
        let given = listing(file, settle);
        if given != expected {
            return Err(format!("case {name} gives\n{given}and not\n{expected}"));
        }
    }
    done.push(format!("{name} ok"));
    Ok(())
}

/// The bytes after the line `file` and the text after the line `listing`.
fn parse(text: &str) -> Result<(Vec<u8>, String), String> {
    let (_, rest) = text.split_once("file\n").ok_or("no file line")?;
    let (hex, expected) = rest.split_once("listing\n").ok_or("no listing line")?;
    let digits: Vec<u32> = hex
        .lines()
        .flat_map(|line| line.split('#').next().unwrap_or("").chars())
        .filter(|c| !c.is_whitespace())
        .map(|c| c.to_digit(16).ok_or(format!("{c} is no digit")))
        .collect::<Result<_, _>>()?;
    let bytes = digits.chunks(2).map(|pair| (pair[0] * 16 + pair[1]) as u8).collect();
    Ok((bytes, expected.to_string()))
}

/// In G, t1 commits and t0 aborts at all three sites.
fn all_three_sites_agree(file: &[u8]) -> Result<(), String> {
    let file = reader::read_file(file).map_err(|refusal| format!("{refusal:?}"))?;
    let mut state = State::fresh(file.setup);
    for step in file.schedule {
        state.step(step, settle::plain);
    }
    let (t0, t1) = (&state.progress[0], &state.progress[1]);
    if (t0.closed, t0.committed, t1.closed, t1.committed) == (7, 0, 7, 7) {
        Ok(())
    } else {
        Err("case G: t1 must commit and t0 abort at all three sites".to_string())
    }
}

/// Name, file and expected listing.
type Case = (&'static str, Vec<u8>, String);

fn run_cases() -> Vec<Case> {
    let mut sixteen = String::new();
    for site in 0..16 {
        sixteen.push_str(&format!("ITEM {site} 0 1 100\n"));
    }
    let eight_reads = eight_reads_listing();
    vec![
        ("16 sites", sites_file(&[16]), sixteen.clone()),
        ("16 sites in two groups", sites_file(&[15, 1]), sixteen),
        ("17 sites", sites_file(&[17]), "FILE 5 7\n".to_string()),
        ("17 sites in two groups", sites_file(&[16, 1]), "FILE 5 19\n".to_string()),
        ("8 reads", reads_file(8), eight_reads),
        ("9 reads", reads_file(9), "FILE 5 51\n".to_string()),
        ("60,000 bytes", sized_file(2, 19_990), sized_listing(2, 19_990)),
        ("60,001 bytes", sized_file(3, 19_989), "FILE 1 0\n".to_string()),
    ]
}

/// One key, groups of these sizes.
fn sites_file(sizes: &[u8]) -> Vec<u8> {
    let mut records = vec![Record::keys(&[100])];
    records.extend(sizes.iter().map(|sites| Record::group(*sites, 1)));
    records.push(Record::end());
    file_of(&records)
}

/// Nine keys at one site; a transaction that reads the first so many of them.
fn reads_file(count: u8) -> Vec<u8> {
    let reads: Vec<u8> = (0..count).collect();
    let mut records = vec![
        Record::keys(&[1, 2, 3, 4, 5, 6, 7, 8, 9]),
        Record::group(1, 0x1FF),
        Record::transaction(&reads, &[]),
        Record::end(),
    ];
    let steps = (0..9).map(|i| Step::Read { t: 0, i, s: 0 });
    records.extend(steps.chain([Step::Submit { t: 0 }, Step::Settle]).map(Record::step));
    file_of(&records)
}

fn eight_reads_listing() -> String {
    let mut expected = String::new();
    for i in 0..8 {
        expected.push_str(&format!("STEP {i} 0 1 {}\n", i + 1));
    }
    expected.push_str("STEP 8 22 0 0\nSTEP 9 0 1 0\nSTEP 10 0 2 0\nTXN 0 1 1\n");
    for key in 0..9 {
        expected.push_str(&format!("ITEM 0 {key} 1 {}\n", key + 1));
    }
    expected
}

/// 22 bytes of setup, then DELIVER (4 bytes each) and SETTLE (3 bytes each).
fn sized_file(delivers: usize, settles: usize) -> Vec<u8> {
    let mut out = sites_file(&[1]);
    for _ in 0..delivers {
        Record::step(Step::Deliver { s: 0 }).put(&mut out);
    }
    for _ in 0..settles {
        Record::step(Step::Settle).put(&mut out);
    }
    let limit_plus = delivers - 2;
    assert_eq!(out.len(), MAX_INPUT + limit_plus);
    out
}

fn sized_listing(delivers: usize, settles: usize) -> String {
    let mut expected = String::new();
    for index in 0..delivers + settles {
        let number = if index < delivers { 26 } else { 0 };
        expected.push_str(&format!("STEP {index} {number} 0 0\n"));
    }
    expected.push_str("ITEM 0 0 1 100\n");
    expected
}

/// Setup and schedule that were not cut after the first END.
fn parts_handed_in_otherwise() -> Result<(), String> {
    let setup = sites_file(&[1]);
    let [one, two, settle] = [vec![0x15], vec![0x15, 0], vec![0x15, 0, 0]];
    let joined = |more: &[u8]| [&setup[..], more].concat();
    let before_end = &setup[..19];
    let cases: [(&[u8], &[u8], Option<(u8, usize)>); 8] = [
        (&setup, &settle, None),
        (&joined(&one), &[], Some((3, 22))),
        (&joined(&two), &settle, Some((3, 22))),
        (&joined(&settle), &settle, Some((3, 22))),
        (before_end, &setup[19..], Some((2, 19))),
        (&[], &setup, Some((2, 0))),
        (&setup, &two, Some((2, 22))),
        (&setup, &[0; MAX_INPUT], Some((1, 0))),
    ];
    for (at, (setup, schedule, expected)) in cases.into_iter().enumerate() {
        let given = reader::read(setup, schedule).err();
        if given.map(|refusal| (refusal.number, refusal.offset)) != expected {
            return Err(format!("parts {at}: {given:?} and not {expected:?}"));
        }
    }
    Ok(())
}
