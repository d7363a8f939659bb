//! The rival: the program's job and texts in Rust over std alone, as fast as its writer could make
//! it. It claims nothing and proves nothing; its tables have no zone.
//!
//! `rival [--table F] [--way stream|shards] [--settle] [--sorted] [--ledger] [--list] [--workers N]
//! [--shards N] [--threads N] [--token HEX] [FILE...]`. `--threads` are those that read and report: as
//! many as workers but four at least if it is not given, as in the program. `--ledger` needs `--sorted`.

mod account;
mod accounts;
#[path = "../peer/civil.rs"]
mod civil;
#[path = "../peer/end.rs"]
mod end;
mod hash;
mod ledger;
mod listing;
mod live;
mod memory;
mod reading;
mod report;
mod settle;
mod shards;
mod sorted;
mod statement;
mod stream;
#[path = "../peer/table.rs"]
mod table;
mod tallies;
mod tap;
mod text;
#[path = "../peer/toml.rs"]
mod toml;

use std::io::Write;
use std::{env, fs, io};

use end::End;
use hash::Seed;
use reading::LoadFault;
use table::Table;
use tap::Token;

const USAGE: &str = "usage: rival [--table F] [--way stream|shards] [--settle] [--sorted] [--ledger] [--list] [--workers N] \
                     [--shards N] [--threads N] [--token HEX] [FILE...]";

/// How the uploads are posted.
#[derive(Clone, Copy, PartialEq)]
enum Way {
    Stream,
    Shards,
    Settle,
    Sorted,
    Ledger,
    List,
}

struct Words {
    table: Option<String>,
    way: Way,
    workers: usize,
    shards: usize,
    threads: usize,
    token: Option<Token>,
    files: Vec<String>,
}

fn words() -> Option<Words> {
    let (mut table, mut token, mut threads) = (None, None, None);
    let (mut way, mut workers, mut shards) = (Way::Stream, 2, 8);
    let mut files = Vec::new();
    let mut args = env::args().skip(1);
    while let Some(word) = args.next() {
        match word.as_str() {
            "--table" => table = Some(args.next()?),
            "--way" => {
                way = match args.next()?.as_str() {
                    "stream" => Way::Stream,
                    "shards" => Way::Shards,
                    _ => return None,
                }
            }
            "--settle" if way == Way::Stream => way = Way::Settle,
            "--sorted" if way == Way::Settle => way = Way::Sorted,
            "--ledger" if way == Way::Sorted => way = Way::Ledger,
            "--settle" | "--sorted" | "--ledger" => return None,
            "--live" if matches!(way, Way::Stream | Way::Shards) => {}
            "--live" => return None,
            "--list" => way = Way::List,
            "--workers" => workers = args.next()?.parse().ok()?,
            "--shards" => shards = args.next()?.parse().ok()?,
            "--threads" => threads = Some(args.next()?.parse().ok()?),
            "--token" => token = Some(table::token_of(&args.next()?)?),
            _ => files.push(word),
        }
    }
    let threads = threads.unwrap_or(workers.max(4));
    let has_table = table.is_some() || way == Way::List;
    let fits =
        (1..=16).contains(&workers) && (1..=64).contains(&shards) && threads > 0 && has_table;
    let has_token_way = token.is_none() || !matches!(way, Way::Sorted | Way::Ledger);
    (fits && has_token_way).then_some(Words {
        table,
        way,
        workers,
        shards,
        threads,
        token,
        files,
    })
}

fn load_fault((name, fault): (String, LoadFault)) -> String {
    match fault {
        LoadFault::Unread => format!("cannot read {name}"),
        LoadFault::TooLong => format!("{name} is too long"),
    }
}

fn read_table(seed: Seed, name: &str) -> Result<Table, String> {
    let text = fs::read_to_string(name).map_err(|_| format!("cannot read {name}"))?;
    Table::read(seed, &text).map_err(|fault| format!("table: {fault}"))
}

fn run(words: &Words) -> Result<Vec<End>, String> {
    let seed = Seed::new();
    let table = words
        .table
        .as_ref()
        .map(|name| read_table(seed, name))
        .transpose()?;
    let mut out = standard_output();
    let (files, shards, workers) = (&words.files, words.shards, words.workers);
    let both = (words.threads, workers);
    if words.way == Way::List {
        return listing::write(table.as_ref(), seed, files, &mut out).map_err(load_fault);
    }
    let table = table.ok_or(USAGE)?;
    if words.way == Way::Ledger {
        ledger::run(&table, seed, files, &mut out)?;
        return Ok(Vec::new());
    }
    let (ends, written) = match (words.way, words.token) {
        (Way::Settle, Some(token)) => {
            let (ends, lines) =
                settle::lines(&table, files, words.threads, token).map_err(load_fault)?;
            let text = statement::statement(&table, token, &lines);
            (ends, out.write_all(&text.0))
        }
        (Way::Settle | Way::Sorted, _) => {
            let settled = if words.way == Way::Sorted {
                sorted::run(&table, seed, files)?
            } else {
                settle::run(&table, seed, files, both).map_err(load_fault)?
            };
            let written = report::write_settled(&settled, words.threads, &mut out);
            (settled.ends, written)
        }
        (way, token) => {
            let posted = if way == Way::Shards {
                shards::run(&table, seed, files, shards, both)
            } else {
                stream::run(&table, seed, files, shards, workers)
            };
            let posted = posted.map_err(load_fault)?;
            let written = match token {
                None => report::write_live(&posted, words.threads, &mut out),
                Some(token) => {
                    let book = &posted.books[accounts::Sharding::new(shards).shard(token)];
                    let lines = book.history.lines(&book.accounts, token);
                    out.write_all(&statement::statement(&table, token, &lines).0)
                }
            };
            (posted.ends, written)
        }
    };
    written.map_err(|_| "cannot write".to_string())?;
    Ok(ends)
}

/// Standard output without a buffer by lines.
fn standard_output() -> fs::File {
    use std::os::fd::AsFd;
    let copy = io::stdout().as_fd().try_clone_to_owned();
    fs::File::from(copy.expect("standard output"))
}

fn main() {
    let Some(words) = words() else {
        eprintln!("{USAGE}");
        memory::exit_now(2);
    };
    let status = match run(&words) {
        Ok(ends) => !ends.iter().all(|end| matches!(end, End::Posted { .. })) as i32,
        Err(fault) => {
            eprintln!("fault: {fault}");
            1
        }
    };
    memory::exit_now(status)
}
