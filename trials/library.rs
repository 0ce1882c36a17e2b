//! The wrapper in Rust: chunks of several sizes give the program's lines and octets, each kind of event has the numbers of its line, a job goes
//! on in another thread and from a checkpoint and is freed, it gives rows, and a refused call tells why.
//!
//!     library SETTINGS RECORDING PACKETS OCTETS REPORT
//!
//! The last three are what `packets` and `extract` write of the recording, and their report.
#[path = "../library/tmx.rs"]
mod tmx;
use std::collections::HashSet;
use tmx::{Break, Events, Fault, Job, Loss, Status, What};

/// What all events tell: the lines of packets and their octets, and the report. `kinds` are those that came.
#[derive(Default)]
struct Told {
    packets: String,
    octets: Vec<u8>,
    report: String,
    kinds: HashSet<String>,
}

impl Told {
    fn add(&mut self, events: Events) {
        for event in events {
            let line = event.to_string();
            let words: Vec<_> = line.split(' ').collect();
            assert!(words[1] == format!("record={}", event.seen) && words[2..].join(" ") == said(event.what), "{line}: not {}", said(event.what));
            self.kinds.insert(words[0].into());
            let lines = if let What::Packet { octets, .. } = event.what {
                self.octets.extend(octets);
                &mut self.packets
            } else {
                &mut self.report
            };
            *lines += &(line + "\n");
        }
    }

    fn feed(&mut self, job: &mut Job, mut octets: &[u8]) {
        while !octets.is_empty() {
            self.add(job.feed(&mut octets).expect("a chunk"));
        }
    }
}

/// What stands in the line behind the record, by the event's numbers.
fn said(what: What) -> String {
    let flag = |it: tmx::Flags| ["continuation", "first", "last", "unsegmented"][it as usize];
    match what {
        What::Packet { from, place, application, count, channel, flags, telecommand, secondary, octets } => format!(
            "channel={channel} from={from} at={place} type={} secondary={} apid={application} flags={} count={count} octets={}",
            if telecommand { "tc" } else { "tm" },
            if secondary { "yes" } else { "no" },
            flag(flags),
            octets.len()
        ),
        What::Bad { why: Fault::Crc } => "fault=crc".into(),
        What::MasterGap { expected, found, missing } => format!("expected={expected} found={found} missing={missing}"),
        What::Gap { channel, expected, found, missing } => format!("channel={channel} expected={expected} found={found} missing={missing}"),
        What::Drop { from, octets, place, channel, why } => {
            let word = match why {
                Loss::Gap => "gap",
                Loss::NoStart => "no-start",
                Loss::End => "end",
                _ => "another",
            };
            format!("channel={channel} from={from} at={place} octets={octets} reason={word}")
        }
        What::Short { octets } => format!("octets={octets}"),
        What::SequenceGap { channel, application, expected, found, missing } => {
            format!("channel={channel} apid={application} expected={expected} found={found} missing={missing}")
        }
        What::Broken { channel, application, first, last, why: Break::Gap } => format!("channel={channel} apid={application} first={first} last={last} reason=gap"),
        What::Broken { channel, application, first, last, why: Break::End } => format!("channel={channel} apid={application} first={first} last={last} reason=end"),
        What::Group { channel, application, first, last } => format!("channel={channel} apid={application} first={first} last={last}"),
        What::Stray { channel, application, count, flags } => format!("channel={channel} apid={application} count={count} flag={}", flag(flags)),
        other => format!("{other:?}"),
    }
}

/// Chunks of several sizes; halfway another thread goes on, and in its middle another job, from the checkpoint.
fn chunks(settings: &[u8], recording: &[u8], [packets, octets, report]: [&[u8]; 3]) {
    let record = Job::new(settings).expect("a job").record_length() as usize;
    for size in [1, record - 1, record + 1, recording.len()] {
        let (mut job, mut told) = (Job::new(settings).expect("a job"), Told::default());
        let mut all = recording.chunks(size);
        all.by_ref().take(recording.len() / size / 2).for_each(|it| told.feed(&mut job, it));
        let job = std::thread::spawn(move || job).join().expect("a thread");
        let (done, kept) = (job.records() as usize * record, job.checkpoint().expect("a checkpoint"));
        drop(job);
        let mut job = Job::resume(settings, &kept).expect("a job from a checkpoint");
        recording[done..].chunks(size).for_each(|it| told.feed(&mut job, it));
        told.add(job.end());
        assert!(job.end().next().is_none() && job.feed(&mut &[0][..]).err().expect("it is closed").status == Status::Closed, "a closed job");
        assert!(told.octets == octets && told.packets.as_bytes() == packets && told.report.as_bytes() == report, "chunks of {size} octets give something else");
        for kind in ["packet", "bad", "mastergap", "gap", "drop", "group", "broken", "seqgap"] {
            assert!(told.kinds.contains(kind), "no {kind} came");
        }
    }
}

/// The packets of some applications alone, and notes of all.
fn applications(settings: &[u8], recording: &[u8], [packets, _, report]: [&[u8]; 3]) {
    let (mut job, mut told) = (Job::new(settings).expect("a job"), Told::default());
    job.only(&[101, 200]).expect("two applications");
    assert!(job.only(&[100, 2048]).err().expect("a refusal").status == Status::Application, "application 2048");
    told.feed(&mut job, recording);
    told.add(job.end());
    let all = String::from_utf8_lossy(packets);
    let chosen: String = all.split_inclusive('\n').filter(|line| line.contains(" apid=101 ") || line.contains(" apid=200 ")).collect();
    assert!(told.packets == chosen && chosen.len() < all.len() && told.report.as_bytes() == report, "other packets or notes of chosen applications");
}

/// Rows of one application alone: each has a packet's octet behind its lead.
fn rows(settings: &[u8], recording: &[u8], packets: &[u8]) {
    let (mut job, mut rest, mut found) = (Job::new(settings).expect("a job"), recording, 0);
    job.only(&[]).expect("no packets");
    job.fields(101, b"name,data_type,bit_length\nall,str,524288\n").expect("a definition");
    job.fields(101, b"name,data_type,bit_length\nfirst,uint,8\n").expect("another one");
    let refused = job.fields(100, b"name,data_type\n").err().expect("a refusal");
    assert!(refused.status == Status::Definition && refused.to_string() == "tmx: definition: column bit_length", "{refused:?}");
    assert!(job.fields(2048, b"").err().expect("a refusal").status == Status::Application, "application 2048");
    while !rest.is_empty() {
        for event in job.feed(&mut rest).expect("a chunk") {
            match event.what {
                What::Row { application: 101, octets, .. } => {
                    assert!(octets.len() == 17 && octets[..4] == event.seen.to_le_bytes() && event.to_string().is_empty(), "a row of {octets:?}");
                    found += 1;
                }
                What::Packet { .. } | What::Row { .. } | What::ShortPacket { .. } => panic!("{:?}", event.what),
                _ => {}
            }
        }
    }
    assert!(found != 0 && found == String::from_utf8_lossy(packets).matches(" apid=101 ").count(), "{found} rows");
}

fn refusals(settings: &[u8]) {
    for (refused, wanted) in [
        (Job::new(b"frame_length = 256\n"), (Status::Settings, 3, 1, "tmx: settings: missing spacecraft")),
        (Job::resume(settings, &[0; 100]), (Status::Checkpoint, 2, 0, "tmx: checkpoint: magic")),
        (Job::new(&vec![b' '; 1048577]), (Status::Long, 1, 0, "tmx: settings: too long")),
    ] {
        let it = refused.err().expect("a refusal");
        assert!((it.status, it.fault, it.key, &it.to_string()[..]) == wanted, "{it:?}");
    }
    let refused = Job::new(settings).expect("a job").fields(101, b"name,data_type,bit_length\nA,uint,99\n");
    let it = refused.err().expect("a refusal");
    assert!((it.status, it.fault, it.column, it.row) == (Status::Definition, 5, 0, 1), "{it:?}");
}

/// A job that is dropped gives its memory back.
fn dropped(settings: &[u8]) {
    let pages = || std::fs::read_to_string("/proc/self/statm").expect("a number").split(' ').next().expect("a number").parse::<usize>().expect("a number");
    let before = pages();
    (0..1000).for_each(|_| drop(Job::new(settings).expect("a job")));
    assert!(pages() < before + 10000, "{} pages are held behind 1000 jobs, {before} before", pages());
}

fn main() {
    let words: Vec<String> = std::env::args().collect();
    let files: Vec<Vec<u8>> = words[1..].iter().map(|it| std::fs::read(it).expect(it)).collect();
    let [settings, recording, packets, octets, report] = &files[..] else { panic!("five files are named") };
    chunks(settings, recording, [packets, octets, report]);
    applications(settings, recording, [packets, octets, report]);
    rows(settings, recording, packets);
    refusals(settings);
    dropped(settings);
}
