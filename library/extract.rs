//! SETTINGS RECORDING: packets to standard output and the report to standard error, as `tmx extract` gives them.

mod tmx;

use std::error::Error;
use std::io::{Read, Result, Write, stderr, stdout};

fn write(events: tmx::Events) -> Result<()> {
    for event in events {
        match event.what {
            tmx::What::Packet { octets, .. } => stdout().write_all(octets)?,
            _ => writeln!(stderr(), "{event}")?,
        }
    }
    Ok(())
}

fn main() -> std::result::Result<(), Box<dyn Error>> {
    let words: Vec<String> = std::env::args().collect();
    let [_, settings, recording] = &words[..] else { return Err("SETTINGS RECORDING".into()) };
    let mut job = tmx::Job::new(&std::fs::read(settings)?)?;
    let mut recording = std::fs::File::open(recording)?;
    let mut chunk = vec![0; 1 << 20];
    loop {
        let read = recording.read(&mut chunk)?;
        if read == 0 {
            write(job.end())?;
            return Ok(stdout().flush()?);
        }
        let mut octets = &chunk[..read];
        while !octets.is_empty() {
            write(job.feed(&mut octets)?)?;
        }
    }
}
