//! Runs a program, and prints its seconds by the clock, processor seconds, peak memory in KiB, status, and
//! the bytes that it read and wrote by calls, which are -1 if the system does not count them.
//!
//! `timed OUT PROGRAM [WORD...]`: the program's standard output goes to the file OUT. A process that is
//! started begins with the peak of the one that starts it, so this one is small: a script is not.

use std::ffi::OsString;
use std::fs::{self, File};
use std::process::{Command, ExitCode, Stdio};
use std::time::Instant;
use std::{env, io};

/// Seconds and microseconds.
type Time = [i64; 2];

/// The system's `struct rusage`.
#[repr(C)]
#[derive(Default)]
struct Usage {
    user: Time,
    system: Time,
    peak: i64,
    others: [i64; 13],
}

unsafe extern "C" {
    fn waitid(kind: i32, pid: u32, info: *mut [u64; 16], options: i32) -> i32;
    fn wait4(pid: i32, status: *mut i32, options: i32, usage: *mut Usage) -> i32;
}

/// `waitid` of a process by its number, until it ends. It stays there until `wait4`.
const PROCESS: i32 = 1;
const ENDED_AND_STAYS: i32 = 0x0100_0004;

/// The bytes that a process has read and written by calls.
fn bytes_of(pid: u32) -> Option<(u64, u64)> {
    let text = fs::read_to_string(format!("/proc/{pid}/io")).ok()?;
    let find = |name: &str| {
        text.lines()
            .find_map(|line| line.strip_prefix(name)?.parse().ok())
    };
    Some((find("rchar: ")?, find("wchar: ")?))
}

fn seconds([whole, millionths]: Time) -> f64 {
    whole as f64 + millionths as f64 / 1e6
}

fn run(out: &OsString, program: &OsString, words: &[OsString]) -> io::Result<()> {
    let out = File::create(out)?;
    let start = Instant::now();
    let child = Command::new(program)
        .args(words)
        .stdin(Stdio::null())
        .stdout(out)
        .spawn()?;
    let (mut status, mut usage, mut info) = (0, Usage::default(), [0; 16]);
    // SAFETY: the child is this process's own, and `info` has the 128 bytes of a `siginfo_t`.
    if unsafe { waitid(PROCESS, child.id(), &mut info, ENDED_AND_STAYS) } < 0 {
        return Err(io::Error::last_os_error());
    }
    let clock = start.elapsed().as_secs_f64();
    let counted = bytes_of(child.id()).map(|(read, written)| format!("{read} {written}"));
    // SAFETY: both places are written by the call alone.
    if unsafe { wait4(child.id() as i32, &mut status, 0, &mut usage) } < 0 {
        return Err(io::Error::last_os_error());
    }
    let busy = seconds(usage.user) + seconds(usage.system);
    let bytes = counted.unwrap_or("-1 -1".to_string());
    println!("{clock} {busy} {} {status} {bytes}", usage.peak);
    Ok(())
}

fn main() -> ExitCode {
    let words: Vec<OsString> = env::args_os().skip(1).collect();
    let [out, program, words @ ..] = &words[..] else {
        eprintln!("usage: timed OUT PROGRAM [WORD...]");
        return ExitCode::from(2);
    };
    match run(out, program, words) {
        Ok(()) => ExitCode::SUCCESS,
        Err(fault) => {
            eprintln!("fault: {fault}");
            ExitCode::from(1)
        }
    }
}
