//! Runs a command, and says how much memory and how much time of the processor it took.
//!
//!     rustc -O peak.rs
//!     peak [--output FILE] COMMAND..
//!
//! With a FILE, what the command writes goes there. What goes out is else that, and then the most bytes of memory
//! that it held, its user time in nanoseconds, and its user and system time. The status is 0 if the command's was,
//! 2 for the words, and 4 where the command fails or can't be run. Linux alone.

use std::env;
use std::ffi::{OsString, c_int, c_long};
use std::fs::File;
use std::io;
use std::process::{Command, ExitCode};

const RUSAGE_CHILDREN: c_int = -1;

#[repr(C)]
#[derive(Default)]
struct Time {
    seconds: c_long,
    microseconds: c_long,
}

impl Time {
    fn nanoseconds(&self) -> i64 {
        (self.seconds * 1_000_000 + self.microseconds) * 1_000
    }
}

/// What Linux tells of the children that have ended.
#[repr(C)]
#[derive(Default)]
struct Usage {
    user: Time,
    system: Time,
    most_kibibytes: c_long,
    others: [c_long; 13],
}

unsafe extern "C" {
    fn getrusage(who: c_int, usage: *mut Usage) -> c_int;
}

fn usage_of_children() -> Option<Usage> {
    let mut usage = Usage::default();
    // SAFETY: the struct has the size and the fields of the C library's `struct rusage` on 64 bits.
    let status = unsafe { getrusage(RUSAGE_CHILDREN, &mut usage) };
    (status == 0).then_some(usage)
}

impl Usage {
    fn most_bytes(&self) -> i64 {
        self.most_kibibytes * 1024
    }
}

/// Whether the command has ended well.
fn ends_well(output: Option<&OsString>, words: &[OsString]) -> io::Result<bool> {
    let mut command = Command::new(&words[0]);
    command.args(&words[1..]);
    if let Some(file) = output {
        command.stdout(File::create(file)?);
    }
    Ok(command.status()?.success())
}

fn main() -> ExitCode {
    let words: Vec<OsString> = env::args_os().skip(1).collect();
    let (output, command) = match &words[..] {
        [word, file, command @ ..] if word == "--output" => (Some(file), command),
        command => (None, command),
    };
    if command.is_empty() {
        eprintln!("usage: peak [--output FILE] COMMAND..");
        return ExitCode::from(2);
    }
    let ended_well = ends_well(output, command).unwrap_or(false);
    match usage_of_children() {
        Some(usage) if ended_well => {
            println!("peak_bytes {}", usage.most_bytes());
            let (user, system) = (usage.user.nanoseconds(), usage.system.nanoseconds());
            println!("user_nanoseconds {user}");
            println!("processor_nanoseconds {}", user + system);
            ExitCode::SUCCESS
        }
        _ => ExitCode::from(4),
    }
}
