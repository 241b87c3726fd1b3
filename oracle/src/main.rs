//! A second program for the same paper: lists files, makes files, and tests itself.

mod answers;
mod cases;
mod check;
mod damage;
mod demands;
mod fuzz;
mod generate;
mod limits;
mod listing;
mod machine;
mod mistakes;
mod odd;
mod random;
mod reader;
mod record;
mod schedule;
mod sets;
mod settle;
mod show;
mod state;
mod tables;

use std::io::{Read, Write};
use std::path::Path;
use std::process::ExitCode;

fn main() -> ExitCode {
    let words: Vec<String> = std::env::args().skip(1).collect();
    let words: Vec<&str> = words.iter().map(String::as_str).collect();
    match command(&words) {
        Ok(output) => print(&output),
        Err(fault) => {
            eprintln!("{fault}");
            ExitCode::FAILURE
        }
    }
}

fn print(output: &[u8]) -> ExitCode {
    match std::io::stdout().write_all(output) {
        Ok(()) => ExitCode::SUCCESS,
        Err(_) => ExitCode::FAILURE,
    }
}

fn command(words: &[&str]) -> Result<Vec<u8>, String> {
    match *words {
        ["list"] => Ok(listing::listing(&input()?, settle::fast).into_bytes()),
        ["list", "--plain"] => Ok(listing::listing(&input()?, settle::plain).into_bytes()),
        ["show"] => Ok(show::show(&input()?).into_bytes()),
        ["generate", kind, seed] => generated(kind, number(seed)?),
        ["generate", kind, seed, count, directory] => {
            generate_many(kind, number(seed)?, number(count)?, Path::new(directory))
        }
        ["check", count, seed, ref options @ ..] => {
            text(check::check(number(count)?, number(seed)?, check_options(options)?))
        }
        ["cases"] => text(cases::run()),
        ["fuzz", "--serve", count, seed, kind, ref words @ ..] => {
            text(fuzz::fuzz(&plan(fuzz::Way::Serve, count, seed, kind, words)?))
        }
        ["fuzz", count, seed, kind, ref words @ ..] => {
            text(fuzz::fuzz(&plan(fuzz::Way::Each, count, seed, kind, words)?))
        }
        _ => Err(usage()),
    }
}

fn plan<'a>(
    way: fuzz::Way,
    count: &str,
    seed: &str,
    kind: &'a str,
    words: &'a [&'a str],
) -> Result<fuzz::Plan<'a>, String> {
    Ok(fuzz::Plan { way, kind, count: number(count)?, seed: number(seed)?, words })
}

fn check_options(words: &[&str]) -> Result<check::Options, String> {
    match *words {
        [] => Ok(check::Options::default()),
        ["--demands", ref rest @ ..] => {
            Ok(check::Options { demands_only: true, ..check_options(rest)? })
        }
        ["--break", name, ref rest @ ..] => {
            let mistake = Some(mistakes::named(name).ok_or_else(usage)?);
            Ok(check::Options { mistake, ..check_options(rest)? })
        }
        _ => Err(usage()),
    }
}

fn text(result: Result<String, String>) -> Result<Vec<u8>, String> {
    result.map(|text| format!("{text}\n").into_bytes())
}

fn number(word: &str) -> Result<u64, String> {
    word.parse().map_err(|_| format!("{word} is no number"))
}

fn input() -> Result<Vec<u8>, String> {
    let mut bytes = Vec::new();
    std::io::stdin().read_to_end(&mut bytes).map_err(|fault| fault.to_string())?;
    Ok(bytes)
}

fn generated(kind: &str, seed: u64) -> Result<Vec<u8>, String> {
    let kind = generate::kind(kind, seed).ok_or_else(usage)?;
    Ok(generate::file(kind, seed))
}

fn generate_many(kind: &str, seed: u64, count: u64, to: &Path) -> Result<Vec<u8>, String> {
    for seed in seed..seed + count {
        let path = to.join(format!("{kind}-{seed}.bin"));
        std::fs::write(path, generated(kind, seed)?).map_err(|fault| fault.to_string())?;
    }
    Ok(Vec::new())
}

fn usage() -> String {
    let mut text = format!(
        "usage: oracle list [--plain] | show | cases\n\
         \x20      oracle generate KIND SEED [COUNT DIR]\n\
         \x20      oracle check COUNT SEED [--demands] [--break NAME]\n\
         \x20      oracle fuzz [--serve] COUNT SEED KIND PROGRAM WORDS..\n\
         kinds: {}\nmistakes to break with:\n",
        generate::kind_names()
    );
    for (name, _, meaning) in mistakes::MISTAKES {
        text.push_str(&format!("  {name:<15} {meaning}\n"));
    }
    text
}
