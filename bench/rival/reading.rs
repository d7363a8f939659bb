//! Uploads to taps: each file is read through a buffer that stays in the near cache, checked batch
//! by batch, and its taps are given away at once. Its bytes are kept nowhere.

use std::fs::File;
use std::io::{self, Read};
use std::sync::Mutex;
use std::sync::atomic::{AtomicUsize, Ordering};
use std::thread;

use crate::end::{End, Fault};
use crate::tap::{Tap, Token};

/// The most bytes of a file.
const FILE_LIMIT: u64 = 67_108_864;
/// No tap is of this moment or later.
pub const MOMENT_LIMIT: u64 = 4_102_444_800_000;
const BUFFER: usize = 256 << 10;
/// The most uploads that a thread draws at once.
const GROUP: usize = 256;

/// Why a file was not loaded.
pub enum LoadFault {
    Unread,
    TooLong,
}

/// Where the taps of sound batches go.
pub trait Sink: Send {
    fn push(&mut self, tap: Tap);

    /// A batch was pushed whole.
    fn end_batch(&mut self) {}

    /// The taps of some uploads in a row were pushed, the first of which has this number.
    fn end_group(&mut self, _first: usize) {}

    /// The thread draws no more uploads.
    fn end(&mut self) {}
}

/// Reads uploads into a sink.
struct Reader<S> {
    buffer: Vec<u8>,
    sink: S,
}

impl<S: Sink> Reader<S> {
    /// Reads a file by its name.
    fn file(&mut self, name: &str) -> Result<End, LoadFault> {
        match File::open(name) {
            Ok(mut file) => self.read(&mut file),
            Err(_) => Err(LoadFault::Unread),
        }
    }

    fn read(&mut self, file: &mut dyn Read) -> Result<End, LoadFault> {
        let (mut have, mut total, mut offset, mut taps) = (0, 0, 0u64, 0);
        let mut fault = None;
        loop {
            let count = match file.read(&mut self.buffer[have..]) {
                Ok(count) => count,
                Err(error) if error.kind() == io::ErrorKind::Interrupted => continue,
                Err(_) => return Err(LoadFault::Unread),
            };
            total += count as u64;
            if total > FILE_LIMIT {
                return Err(LoadFault::TooLong);
            }
            have += count;
            let is_end = count == 0;
            if !is_end && have < BUFFER / 2 {
                continue;
            }
            let mut done = 0;
            while fault.is_none() && done < have {
                match self.batch(done, have, is_end) {
                    Ok(None) => break,
                    Ok(Some((len, count))) => {
                        done += len;
                        taps += count;
                    }
                    Err(found) => fault = Some((offset + done as u64, found)),
                }
            }
            if fault.is_some() {
                done = have;
            }
            offset += done as u64;
            self.buffer.copy_within(done..have, 0);
            have -= done;
            if is_end {
                return Ok(match fault {
                    None => End::Posted { taps },
                    Some((offset, fault)) => End::Refused {
                        taps,
                        offset,
                        fault,
                    },
                });
            }
        }
    }

    /// The batch at this place of the buffer: its length and how many taps it has, or none if
    /// more of the file is needed.
    fn batch(
        &mut self,
        from: usize,
        to: usize,
        is_end: bool,
    ) -> Result<Option<(usize, u64)>, Fault> {
        let bytes = &self.buffer[from..to];
        if !is_end && bytes.len() < 12 {
            return Ok(None);
        }
        let second = bytes.starts_with(b"TAP2");
        let header = if second { 12 } else { 8 };
        if bytes.len() < header {
            return Err(Fault::Short);
        }
        if !second && !bytes.starts_with(b"TAP1") {
            return Err(Fault::Magic);
        }
        let count = u16::from_be_bytes([bytes[4], bytes[5]]) as usize;
        if bytes[6] != 0 || bytes[7] != 0 {
            return Err(Fault::Flags);
        }
        if count > 4096 {
            return Err(Fault::TooMany);
        }
        let record = if second { 24 } else { 28 };
        let want = header + record * count;
        if bytes.len() < want {
            return if is_end { Err(Fault::Length) } else { Ok(None) };
        }
        let records = &bytes[header..want];
        if second {
            let shared = u32::from_be_bytes(bytes[8..12].try_into().unwrap());
            deal::<24, S>(records, shared, &mut self.sink)?;
        } else {
            deal::<28, S>(records, 0, &mut self.sink)?;
        }
        self.sink.end_batch();
        Ok(Some((want, count as u64)))
    }
}

#[inline(always)]
fn moment_of<const WIDTH: usize>(record: &[u8]) -> u64 {
    u64::from_be_bytes(record[WIDTH - 8..WIDTH].try_into().unwrap())
}

/// Gives the taps of a batch to the sink, if all their moments are below the limit.
fn deal<const WIDTH: usize, S: Sink>(
    records: &[u8],
    shared: u32,
    sink: &mut S,
) -> Result<(), Fault> {
    let mut late = 0;
    for record in records.chunks_exact(WIDTH) {
        late |= (moment_of::<WIDTH>(record) >= MOMENT_LIMIT) as u8;
    }
    if late != 0 {
        return Err(Fault::Moment);
    }
    for record in records.chunks_exact(WIDTH) {
        let validator = if WIDTH == 28 {
            u32::from_be_bytes(record[16..20].try_into().unwrap())
        } else {
            shared
        };
        sink.push(Tap {
            token: Token::of(record),
            moment: moment_of::<WIDTH>(record),
            validator,
        });
    }
    Ok(())
}

/// Reads all uploads by this many threads, each into the sink that `sink` makes for its number.
/// Without a name, standard input is the one upload. The first upload that is not loaded, in their
/// order, is reported by its name.
pub fn read_all<S: Sink>(
    names: &[String],
    threads: usize,
    sink: impl Fn(usize) -> S + Sync,
) -> Result<(Vec<End>, Vec<S>), (String, LoadFault)> {
    let count = names.len().max(1);
    let group = (count / (threads * 16)).clamp(1, GROUP);
    let drawn = AtomicUsize::new(0);
    let done = Mutex::new((Vec::new(), Vec::new()));
    let work = |thread: usize| {
        let buffer = vec![0; BUFFER];
        let sink = sink(thread);
        let mut reader = Reader { buffer, sink };
        let mut ends = Vec::new();
        loop {
            let first = drawn.fetch_add(group, Ordering::Relaxed);
            if first >= count {
                break;
            }
            for upload in first..count.min(first + group) {
                let end = match names.get(upload) {
                    Some(name) => reader.file(name),
                    None => reader.read(&mut io::stdin().lock()),
                };
                ends.push((upload, end));
            }
            reader.sink.end_group(first);
        }
        reader.sink.end();
        let mut done = done.lock().unwrap();
        done.0.extend(ends);
        done.1.push(reader.sink);
    };
    thread::scope(|scope| {
        let work = &work;
        for thread in 1..threads.min(count) {
            scope.spawn(move || work(thread));
        }
        work(0);
    });
    let (mut ends, sinks) = done.into_inner().unwrap();
    ends.sort_unstable_by_key(|(upload, _)| *upload);
    let name = |upload: usize| {
        names
            .get(upload)
            .map_or("standard input", |name| name)
            .to_string()
    };
    let ends = ends
        .into_iter()
        .map(|(upload, end)| end.map_err(|fault| (name(upload), fault)))
        .collect::<Result<_, _>>()?;
    Ok((ends, sinks))
}
