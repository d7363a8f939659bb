//! The peer: what the program does, in Rust without proofs, over std alone, as a measure of its
//! speed.
//!
//! `peer --table F [--workers N] [--shards N] [--token HEX] [--live] FILE...` posts the files to books and prints the report,
//! or the statement of one token. It claims nothing and proves nothing; its tables have no zone.

mod account;
mod book;
mod civil;
mod end;
mod layout;
mod service;
mod table;
mod text;
mod toml;

use std::io::Write;
use std::process::ExitCode;
use std::{env, fs, io};

use end::End;
use layout::Token;
use service::Service;
use table::Table;

/// What seeds the hash of the table's riders: std's own.
type Seed = std::hash::RandomState;

struct Words {
    table: String,
    workers: u32,
    shards: u32,
    token: Option<Token>,
    files: Vec<String>,
}

fn words() -> Option<Words> {
    let mut table = None;
    let (mut workers, mut shards, mut token) = (2, 8, None);
    let mut files = Vec::new();
    let mut args = env::args().skip(1);
    while let Some(word) = args.next() {
        match word.as_str() {
            "--table" => table = args.next(),
            "--workers" => workers = args.next()?.parse().ok()?,
            "--shards" => shards = args.next()?.parse().ok()?,
            "--token" => token = Some(table::token_of(&args.next()?)?),
            "--live" => {}
            _ => files.push(word),
        }
    }
    let fits = (1..=16).contains(&workers) && (1..=64).contains(&shards) && !files.is_empty();
    fits.then_some(Words {
        table: table?,
        workers,
        shards,
        token,
        files,
    })
}

fn run(words: &Words) -> Result<bool, String> {
    let cannot_read = |name: &String| format!("cannot read {name}");
    let text = fs::read_to_string(&words.table).map_err(|_| cannot_read(&words.table))?;
    let table = Table::read(Seed::new(), &text).map_err(|fault| format!("table: {fault}"))?;
    let mut uploads = Vec::with_capacity(words.files.len());
    for name in &words.files {
        uploads.push(fs::read(name).map_err(|_| cannot_read(name))?);
    }
    let (books, ends) = Service::open(&table, words.shards, &uploads).run(words.workers);
    let text = match words.token {
        None => text::report(&ends, &book::summary(&books)),
        Some(token) => text::statement(&table, &books[token.shard(words.shards) as usize], token),
    };
    io::stdout()
        .write_all(&text)
        .map_err(|_| "cannot write".to_string())?;
    Ok(ends.iter().all(|end| matches!(end, End::Posted { .. })))
}

fn main() -> ExitCode {
    let Some(words) = words() else {
        eprintln!("usage: peer --table F [--workers N] [--shards N] [--token HEX] [--live] FILE...");
        return ExitCode::from(2);
    };
    match run(&words) {
        Ok(true) => ExitCode::SUCCESS,
        Ok(false) => ExitCode::from(1),
        Err(fault) => {
            eprintln!("fault: {fault}");
            ExitCode::from(1)
        }
    }
}
