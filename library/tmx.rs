//! A safe wrapper of `libtmx`: a job takes a recording as it comes, and gives its packets and the report. `tmx.h` says what the
//! numbers mean. It is one file that needs the standard library alone, of Rust 1.82 or later: copy it beside a program as `mod tmx;`, or into a
//! crate as `src/lib.rs`.
//! Link it by `rustc -L FOLDER -l static=tmx`, FOLDER being that of `libtmx.a`, or by a `build.rs` that prints
//!
//! ```text
//! cargo:rustc-link-search=FOLDER
//! cargo:rustc-link-lib=static=tmx
//! ```
//!
//! `Job::new` and `Job::resume` need 3 MiB of stack, and threads of Rust have 2: take `std::thread::Builder::stack_size(4 << 20)`.
#![allow(dead_code)]

use std::ffi::{CStr, c_char, c_void};
use std::{fmt, ptr, slice};

macro_rules! numbers {
    ($(#[$about:meta])* $name:ident { $($word:ident = $number:literal),* }) => {
        $(#[$about])* #[derive(Clone, Copy, Debug, PartialEq, Eq)]
        pub enum $name { $($word = $number,)* /** A number that this file doesn't know. */ Other = 255 }
        impl $name {
            fn of(number: u32) -> $name {
                match number { $($number => $name::$word,)* _ => $name::Other }
            }
        }
    };
}

numbers! { /** Why a call of a job was refused. */ Status { Settings = 3, Checkpoint = 4, TooMany = 5, Memory = 6, Definition = 7, Application = 8, Long = 10, Closed = 12 } }
numbers! { /** What is wrong with a frame. */ Fault {
    Crc = 1, Version = 2, Spacecraft = 3, SecondaryFlag = 4, OcfFlag = 5, SecondaryVersion = 6, Layout = 7, Pointer = 8
} }
numbers! { /** Why octets are dropped. */ Loss { Pointer = 1, Gap = 2, Vca = 3, End = 4, NoStart = 5, Version = 6, Length = 7 } }
numbers! { /** Why a group is broken. */ Break { Gap = 1, First = 2, Unsegmented = 3, End = 4 } }
numbers! { /** The sequence flags of a packet. */ Flags { Continuation = 0, First = 1, Last = 2, Unsegmented = 3 } }

/// What an event tells. `octets` of a packet are the packet itself, and those of a row its fields in the binary form.
#[derive(Clone, Copy, Debug, PartialEq, Eq)]
pub enum What<'a> {
    Packet { from: u32, place: u16, application: u16, count: u16, channel: u8, flags: Flags, telecommand: bool, secondary: bool, octets: &'a [u8] },
    Bad { why: Fault },
    MasterGap { expected: u16, found: u16, missing: u16 },
    Gap { channel: u8, expected: u16, found: u16, missing: u16 },
    Vca { channel: u8 },
    Drop { from: u32, octets: u32, place: u16, channel: u8, why: Loss },
    Short { octets: u32 },
    SequenceGap { channel: u8, application: u16, expected: u16, found: u16, missing: u16 },
    Broken { channel: u8, application: u16, first: u16, last: u16, why: Break },
    Group { channel: u8, application: u16, first: u16, last: u16 },
    Stray { channel: u8, application: u16, count: u16, flags: Flags },
    Row { application: u16, count: u16, channel: u8, octets: &'a [u8] },
    ShortPacket { from: u32, octets: u32, needed: u64, place: u16, application: u16, count: u16, channel: u8 },
    /// A kind that this file doesn't know.
    Other,
}

/// An event, and the record at which it is given. `Display` gives the program's line.
pub struct Event<'a> {
    pub seen: u32,
    pub what: What<'a>,
    numbers: &'a Numbers,
}

/// The events that a call gave, in the order of the report.
#[must_use = "the next call gives others"]
pub struct Events<'a> {
    numbers: slice::Iter<'a, Numbers>,
    packets: &'a [u8],
}

impl<'a> Iterator for Events<'a> {
    type Item = Event<'a>;

    fn next(&mut self) -> Option<Event<'a>> {
        self.numbers.next().map(|numbers| Event { seen: numbers.seen, what: numbers.what(self.packets), numbers })
    }
}

impl fmt::Display for Event<'_> {
    fn fmt(&self, f: &mut fmt::Formatter) -> fmt::Result {
        let mut line = [0; LINE_MOST];
        let length = unsafe { tmx_event_line(self.numbers, line.as_mut_ptr().cast(), LINE_MOST) };
        f.write_str(&String::from_utf8_lossy(&line[..length]))
    }
}

/// Why a call was refused. Numbers that say nothing are 0: `key` is of settings, `column` and `row` are of a definition. `Display` gives the
/// program's line, or what the status says.
#[derive(Clone, Debug, PartialEq, Eq)]
pub struct Error {
    pub status: Status,
    pub fault: u32,
    pub key: u32,
    pub column: u32,
    pub row: u32,
    line: String,
}

impl Error {
    fn of(status: u32, refusal: &Refusal) -> Error {
        let line = CStr::from_bytes_until_nul(&refusal.line).ok().filter(|line| !line.is_empty());
        // The texts of statuses are constants.
        let line = line.unwrap_or_else(|| unsafe { CStr::from_ptr(tmx_status_text(status)) });
        let Refusal { fault, key, column, row, .. } = *refusal;
        Error { status: Status::of(status), fault, key, column, row, line: line.to_string_lossy().into() }
    }
}

impl fmt::Display for Error {
    fn fmt(&self, f: &mut fmt::Formatter) -> fmt::Result {
        f.write_str(&self.line)
    }
}

impl std::error::Error for Error {}

/// A job over a recording, and the rooms that it fills.
pub struct Job {
    job: *mut c_void,
    events: Vec<Numbers>,
    packets: Vec<u8>,
}

// Its memory comes from `malloc`, and nothing in it is bound to a thread.
unsafe impl Send for Job {}

impl Job {
    /// A job at the beginning of a recording. `settings` are the text of a settings file.
    pub fn new(settings: &[u8]) -> Result<Job, Error> {
        Job::open(|job, refusal| unsafe { tmx_job_new(job, settings.as_ptr(), settings.len(), refusal) })
    }

    /// A job that goes on where the program or a job wrote this checkpoint.
    pub fn resume(settings: &[u8], checkpoint: &[u8]) -> Result<Job, Error> {
        let (at, length) = (checkpoint.as_ptr(), checkpoint.len());
        Job::open(|job, refusal| unsafe { tmx_job_resume(job, settings.as_ptr(), settings.len(), at, length, refusal) })
    }

    fn open(call: impl FnOnce(&mut *mut c_void, &mut Refusal) -> u32) -> Result<Job, Error> {
        let (mut job, mut refusal) = (ptr::null_mut(), NO_REFUSAL);
        match call(&mut job, &mut refusal) {
            DONE => Ok(Job { job, events: vec![Numbers::default(); 8 * EVENTS_MOST], packets: vec![0; 1 << 20] }),
            status => Err(Error::of(status, &refusal)),
        }
    }

    /// From now on gives packets of these applications alone; notes of others still come. It is refused where a number is over 2047.
    pub fn only(&mut self, applications: &[u16]) -> Result<(), Error> {
        match unsafe { tmx_job_only(self.job, applications.as_ptr(), applications.len()) } {
            DONE => Ok(()),
            status => Err(Error::of(status, &NO_REFUSAL)),
        }
    }

    /// From now on gives rows of the packets of this application, with the rooms for them. `definition` is the text that defines their fields.
    pub fn fields(&mut self, application: u16, definition: &[u8]) -> Result<(), Error> {
        let (mut refusal, mut events, mut octets) = (NO_REFUSAL, 0, 0);
        match unsafe { tmx_job_fields(self.job, application, definition.as_ptr(), definition.len(), &mut refusal) } {
            DONE => unsafe { tmx_job_most(self.job, &mut events, &mut octets) },
            status => return Err(Error::of(status, &refusal)),
        };
        self.events.resize(events.max(self.events.len()), Numbers::default());
        self.packets.resize(octets.max(self.packets.len()), 0);
        Ok(())
    }

    /// Takes the next octets of the recording, cut anywhere, from the front of `octets`: as many as the rooms hold the events of. Call it until
    /// none are left. A call that is refused takes none.
    pub fn feed(&mut self, octets: &mut &[u8]) -> Result<Events<'_>, Error> {
        let mut did = Progress::default();
        match unsafe { tmx_job_feed(self.job, octets.as_ptr(), octets.len(), &mut self.room(0), &mut did) } {
            status if status != DONE && did.used == 0 => return Err(Error::of(status, &NO_REFUSAL)),
            _ => *octets = &octets[did.used..],
        }
        Ok(Events { numbers: self.events[..did.events].iter(), packets: &self.packets[..did.octets] })
    }

    /// Tells the end of the recording: what is unfinished. Afterwards `feed` is refused.
    pub fn end(&mut self) -> Events<'_> {
        let (mut did, mut given) = (Progress::default(), 0);
        loop {
            self.events.resize(self.events.len().max(given + EVENTS_MOST), Numbers::default());
            let status = unsafe { tmx_job_end(self.job, &mut self.room(given), &mut did) };
            given += did.events;
            if status == DONE {
                return Events { numbers: self.events[..given].iter(), packets: &[] };
            }
        }
    }

    // What is behind so many events, and all the room for packets.
    fn room(&mut self, given: usize) -> Room {
        let events = &mut self.events[given..];
        Room(events.as_mut_ptr(), events.len(), self.packets.as_mut_ptr(), self.packets.len())
    }

    /// The checkpoint of the whole records that are done. It is refused where memory runs out.
    pub fn checkpoint(&self) -> Result<Vec<u8>, Error> {
        let (mut octets, mut length) = (vec![0; CHECKPOINT_MOST], 0);
        match unsafe { tmx_job_checkpoint(self.job, octets.as_mut_ptr(), octets.len(), &mut length) } {
            DONE => Ok(octets[..length].to_vec()),
            status => Err(Error::of(status, &NO_REFUSAL)),
        }
    }

    /// How many records are done.
    pub fn records(&self) -> u32 {
        unsafe { tmx_job_records(self.job) }
    }

    /// How many octets each record has.
    pub fn record_length(&self) -> u32 {
        unsafe { tmx_job_record_length(self.job) }
    }
}

impl Drop for Job {
    fn drop(&mut self) {
        unsafe { tmx_job_free(self.job) }
    }
}

// What stands in `tmx.h`.
const DONE: u32 = 0;
const LINE_MOST: usize = 320;
const EVENTS_MOST: usize = 1170;
const CHECKPOINT_MOST: usize = 622_710;
const NO_REFUSAL: Refusal = Refusal { status: DONE, fault: 0, key: 0, column: 0, row: 0, line: [0; LINE_MOST] };

#[repr(C)]
#[derive(Clone, Copy, Default)]
struct Numbers {
    size: u32, seen: u32, from: u32, octets: u32, at: u64,
    place: u16, application: u16, count: u16, expected: u16, found: u16, missing: u16,
    kind: u8, channel: u8, flags: u8, telecommand: u8, secondary: u8, why: u8,
}

impl Numbers {
    fn what<'a>(&self, packets: &'a [u8]) -> What<'a> {
        let Numbers { from, octets, place, application, count, expected, found, missing, channel, .. } = *self;
        let (why, flags) = (u32::from(self.why), Flags::of(self.flags.into()));
        let its_octets = || &packets[self.at as usize..][..octets as usize];
        match self.kind {
            1 => What::Packet {
                from, place, application, count, channel, flags, telecommand: self.telecommand != 0, secondary: self.secondary != 0,
                octets: its_octets(),
            },
            2 => What::Bad { why: Fault::of(why) },
            3 => What::MasterGap { expected, found, missing },
            4 => What::Gap { channel, expected, found, missing },
            5 => What::Vca { channel },
            6 => What::Drop { from, octets, place, channel, why: Loss::of(why) },
            7 => What::Short { octets },
            8 => What::SequenceGap { channel, application, expected, found, missing },
            9 => What::Broken { channel, application, first: expected, last: found, why: Break::of(why) },
            10 => What::Group { channel, application, first: expected, last: found },
            11 => What::Stray { channel, application, count, flags },
            12 => What::Row { application, count, channel, octets: its_octets() },
            13 => What::ShortPacket { from, octets, needed: self.at, place, application, count, channel },
            _ => What::Other,
        }
    }
}

#[repr(C)]
struct Refusal { status: u32, fault: u32, key: u32, column: u32, row: u32, line: [u8; LINE_MOST] }

#[repr(C)]
struct Room(*mut Numbers, usize, *mut u8, usize);

#[repr(C)]
#[derive(Default)]
struct Progress { status: u32, records: u32, used: usize, events: usize, octets: usize }

unsafe extern "C" {
    fn tmx_status_text(status: u32) -> *const c_char;
    fn tmx_event_line(event: *const Numbers, line: *mut c_char, room: usize) -> usize;
    fn tmx_job_new(job: *mut *mut c_void, settings: *const u8, length: usize, error: *mut Refusal) -> u32;
    fn tmx_job_resume(job: *mut *mut c_void, settings: *const u8, length: usize, checkpoint: *const u8, length2: usize, error: *mut Refusal) -> u32;
    fn tmx_job_only(job: *mut c_void, applications: *const u16, count: usize) -> u32;
    fn tmx_job_fields(job: *mut c_void, application: u16, definition: *const u8, length: usize, error: *mut Refusal) -> u32;
    fn tmx_job_most(job: *const c_void, events: *mut usize, octets: *mut usize) -> u32;
    fn tmx_job_feed(job: *mut c_void, octets: *const u8, length: usize, room: *mut Room, progress: *mut Progress) -> u32;
    fn tmx_job_end(job: *mut c_void, room: *mut Room, progress: *mut Progress) -> u32;
    fn tmx_job_checkpoint(job: *const c_void, to: *mut u8, room: usize, length: *mut usize) -> u32;
    fn tmx_job_records(job: *const c_void) -> u32;
    fn tmx_job_record_length(job: *const c_void) -> u32;
    fn tmx_job_free(job: *mut c_void);
}
