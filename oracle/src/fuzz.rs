//! `fuzz`: another program's listings, compared with the ones made here.

use std::io::{Read, Write};
use std::process::{Child, ChildStdin, ChildStdout, Command, Stdio};
use std::sync::atomic::{AtomicU64, Ordering};
use std::sync::Mutex;
use std::thread;

use crate::generate;
use crate::listing::listing;
use crate::settle;

const THREADS: usize = 2;

/// How the other program is asked.
#[derive(Clone, Copy)]
pub enum Way {
    /// One process for each file: the file on standard input, the listing on standard output.
    Each,
    /// One process for many files, each after its length in four bytes, the lowest first. It answers
    /// the listing's length or minus the refusal in eight bytes, the lowest first, and the listing.
    Serve,
}

pub struct Plan<'a> {
    pub way: Way,
    pub kind: &'a str,
    pub count: u64,
    pub seed: u64,
    /// The program and its words.
    pub words: &'a [&'a str],
}

struct Difference {
    seed: u64,
    text: String,
}

/// Compares `count` files of the kind; stops handing out seeds at a difference.
pub fn fuzz(plan: &Plan) -> Result<String, String> {
    let next = AtomicU64::new(0);
    let compared = AtomicU64::new(0);
    let first: Mutex<Option<Difference>> = Mutex::new(None);
    let work = || {
        let mut server = None;
        loop {
            let index = next.fetch_add(1, Ordering::Relaxed);
            if index >= plan.count {
                break;
            }
            let seed = plan.seed + index;
            if let Err(text) = compare(plan, seed, &mut server) {
                next.store(plan.count, Ordering::Relaxed);
                keep_first(&first, Difference { seed, text });
            }
            compared.fetch_add(1, Ordering::Relaxed);
        }
    };
    thread::scope(|scope| {
        for _ in 0..THREADS {
            scope.spawn(work);
        }
    });
    let compared = compared.into_inner();
    match first.into_inner().expect("no thread panics") {
        None => Ok(format!("{compared} files compared, all the same")),
        Some(first) => Err(format!("{compared} files compared, first difference: {}", first.text)),
    }
}

fn keep_first(first: &Mutex<Option<Difference>>, found: Difference) {
    let mut first = first.lock().expect("no thread panics");
    if first.as_ref().is_none_or(|known| found.seed < known.seed) {
        *first = Some(found);
    }
}

fn compare(plan: &Plan, seed: u64, server: &mut Option<Server>) -> Result<(), String> {
    let kind = generate::kind(plan.kind, seed).ok_or("no such kind")?;
    let name = generate::kind_name(kind);
    let file = generate::file(kind, seed);
    let expected = listing(&file, settle::fast);
    let (expected, given) = match plan.way {
        Way::Each => (expected, each(plan.words, &file)),
        Way::Serve => (as_answered(&expected), serve(plan.words, &file, server)),
    };
    let given = given.map_err(|fault| format!("{name} {seed}: {fault}"))?;
    if given == expected.as_bytes() {
        return Ok(());
    }
    Err(format!("{name} {seed}, {}", first_differing_line(&expected, &given)))
}

fn start(words: &[&str]) -> Result<Child, String> {
    let (program, words) = words.split_first().ok_or("no program")?;
    Command::new(program)
        .args(words)
        .stdin(Stdio::piped())
        .stdout(Stdio::piped())
        .spawn()
        .map_err(|fault| fault.to_string())
}

/// The program's standard output. The file fits in a pipe, so it is handed over at once.
fn each(words: &[&str], file: &[u8]) -> Result<Vec<u8>, String> {
    let mut child = start(words)?;
    if let Some(mut stdin) = child.stdin.take() {
        // A program may end before it has read everything; its output tells.
        let _ = stdin.write_all(file);
    }
    let output = child.wait_with_output().map_err(|fault| fault.to_string())?;
    Ok(output.stdout)
}

/// A program that answers one file after the other; it ends when its standard input does.
struct Server {
    stdin: ChildStdin,
    stdout: ChildStdout,
}

fn serve(words: &[&str], file: &[u8], server: &mut Option<Server>) -> Result<Vec<u8>, String> {
    if server.is_none() {
        let mut child = start(words)?;
        let stdin = child.stdin.take().ok_or("no standard input")?;
        let stdout = child.stdout.take().ok_or("no standard output")?;
        *server = Some(Server { stdin, stdout });
    }
    let server = server.as_mut().ok_or("no server")?;
    server.ask(file).map_err(|fault| fault.to_string())
}

impl Server {
    fn ask(&mut self, file: &[u8]) -> std::io::Result<Vec<u8>> {
        let mut request = (file.len() as u32).to_le_bytes().to_vec();
        request.extend_from_slice(file);
        self.stdin.write_all(&request)?;
        self.stdin.flush()?;
        let mut answer = [0; 8];
        self.stdout.read_exact(&mut answer)?;
        let answer = i64::from_le_bytes(answer);
        if answer < 0 {
            return Ok(refusal(-answer).into_bytes());
        }
        let mut given = vec![0; answer as usize];
        self.stdout.read_exact(&mut given)?;
        Ok(given)
    }
}

fn refusal(number: i64) -> String {
    format!("refused {number}")
}

/// What the C caller gets: of a refused file the number alone.
fn as_answered(listing: &str) -> String {
    let mut words = listing.split(' ');
    match (words.next(), words.next().map(str::parse)) {
        (Some("FILE"), Some(Ok(number))) => refusal(number),
        _ => listing.to_string(),
    }
}

fn first_differing_line(expected: &str, given: &[u8]) -> String {
    let given = String::from_utf8_lossy(given);
    let (mut ours, mut theirs) = (expected.split('\n'), given.split('\n'));
    let mut number = 1;
    loop {
        match (ours.next(), theirs.next()) {
            (Some(our), Some(their)) if our == their => number += 1,
            (our, their) => return format!("line {number}: expected {our:?}, given {their:?}"),
        }
    }
}
