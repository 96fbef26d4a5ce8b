//! A plain Rust program that gives the same answers as `cif normalise` and `cif check`, unproved, with one thread.
//!
//!     rustc --edition 2021 -O normalise.rs
//!     normalise normalise [--from D] [--to D] [--form 1|2] [FILE]
//!     normalise check [--from D] [--to D] [--form 1|2] [FILE]
//!
//! Without FILE it reads standard input. D is a date by year, month and day, six digits: a part of the window
//! alone is then taken. Without `--form` it is form 2. Where a device fails or memory is refused it may answer
//! otherwise than `cif`.
//!
//! The input is read into memory once. A line's 80 bytes are classified with a bit per column (is it a space?),
//! so that most rules about a line are bit tests. The body of a schedule whose lines are plain already is a
//! slice of the input and is never copied before it is printed; only odd lines are copied, in their plain form.
//! Keys are grouped by sorting, winners are chosen once for each stretch between two cuts, and whole weeks of a
//! stretch are one segment.

#[path = "normalise/days.rs"]
mod days;
#[path = "normalise/lines.rs"]
mod lines;
#[path = "normalise/records.rs"]
mod records;
#[path = "normalise/refusals.rs"]
mod refusals;
#[path = "normalise/stretches.rs"]
mod stretches;

use days::{Names, from_yymmdd};
use records::{Extract, narrow, parse};
use refusals::Fault;
use std::fs::File;
use std::io::{Read, Write};
use std::os::fd::AsFd;
use stretches::{Assocs, Run, Scheds, Solver};

struct Out {
    file: File,
    buffer: Vec<u8>,
}

const BUFFER: usize = 1 << 18;

impl Out {
    #[inline]
    fn put(&mut self, bytes: &[u8]) -> std::io::Result<()> {
        if self.buffer.len() + bytes.len() > BUFFER {
            self.file.write_all(&self.buffer)?;
            self.buffer.clear();
            if bytes.len() > BUFFER {
                return self.file.write_all(bytes);
            }
        }
        self.buffer.extend_from_slice(bytes);
        Ok(())
    }

    fn end(&mut self) -> std::io::Result<()> {
        self.file.write_all(&self.buffer)
    }
}

fn mask_columns(mask: u8) -> [u8; 7] {
    std::array::from_fn(|i| b'0' + (mask >> i & 1))
}

fn write(out: &mut Out, x: &Extract, assoc_runs: &[Run], runs: &[Run]) -> std::io::Result<()> {
    let mut line = [b' '; 81];
    line[80] = b'\n';
    line[..80].copy_from_slice(&x.header);
    out.put(&line)?;
    line.fill(b' ');
    line[80] = b'\n';
    line[..2].copy_from_slice(b"TI");
    for value in &x.tiplocs {
        line[2..72].copy_from_slice(*value);
        out.put(&line)?;
    }
    let names = Names::of(x.window);
    line[..3].copy_from_slice(b"AAN");
    line[48..79].fill(b' ');
    line[79] = b'P';
    for run in assoc_runs {
        let assoc = &x.assocs[run.source as usize];
        line[3..15].copy_from_slice(&assoc.key[..12]);
        line[15..21].copy_from_slice(names.get(run.first));
        line[21..27].copy_from_slice(names.get(run.last));
        line[27..34].copy_from_slice(&mask_columns(run.mask));
        line[34..37].copy_from_slice(&assoc.body[..3]);
        line[37..46].copy_from_slice(&assoc.key[12..]);
        line[46..48].copy_from_slice(&assoc.body[3..]);
        out.put(&line)?;
    }
    for run in runs {
        let lines = x.lines(&x.scheds[run.source as usize]);
        line[..9].copy_from_slice(&lines[..9]);
        line[9..15].copy_from_slice(names.get(run.first));
        line[15..21].copy_from_slice(names.get(run.last));
        line[21..28].copy_from_slice(&mask_columns(run.mask));
        line[28] = b' ';
        line[29..78].copy_from_slice(&lines[29..78]);
        line[78] = b' ';
        out.put(&line)?;
        out.put(&lines[81..])?;
    }
    line[..80].fill(b' ');
    line[..2].copy_from_slice(b"ZZ");
    out.put(&line)?;
    out.end()
}

struct Job {
    check: bool,
    file: Option<String>,
    from: Option<u16>,
    to: Option<u16>,
    form_two: bool,
    max_lines: u64,
}

enum JobFault {
    Help,
    Usage,
    BadDate,
}

fn job_of(words: &[String]) -> Result<Job, JobFault> {
    let check = match words.first().map(String::as_str) {
        Some("normalise") => false,
        Some("check") => true,
        Some("help" | "-h" | "--help") => return Err(JobFault::Help),
        _ => return Err(JobFault::Usage),
    };
    let mut file = None;
    let mut options: [Option<String>; 4] = Default::default();
    let mut rest = words[1..].iter();
    while let Some(word) = rest.next() {
        if word == "-h" || word == "--help" {
            return Err(JobFault::Help);
        } else if word.starts_with('-') && word != "-" {
            let (name, value) = match word.split_once('=') {
                Some((name, value)) => (name, Some(value.to_string())),
                None => (word.as_str(), None),
            };
            let which = ["--from", "--to", "--form", "--max-lines"]
                .iter()
                .position(|o| *o == name)
                .ok_or(JobFault::Usage)?;
            let value = value
                .or_else(|| rest.next().cloned())
                .ok_or(JobFault::Usage)?;
            if options[which].replace(value).is_some() {
                return Err(JobFault::Usage);
            }
        } else if file.replace(word.clone()).is_some() {
            return Err(JobFault::Usage);
        }
    }
    let [from, to, form, max_lines] = options;
    let form_two = match form.as_deref() {
        None | Some("2") => true,
        Some("1") => false,
        _ => return Err(JobFault::Usage),
    };
    let max_lines = match max_lines {
        None => 100_000_000,
        Some(word) => word.parse().map_err(|_| JobFault::Usage)?,
    };
    let day = |word: Option<String>| -> Result<Option<u16>, JobFault> {
        word.map(|word| {
            let word = word.as_bytes();
            if word.len() == 6 {
                from_yymmdd(word)
            } else {
                None
            }
            .ok_or(JobFault::BadDate)
        })
        .transpose()
    };
    Ok(Job {
        check,
        file,
        from: day(from)?,
        to: day(to)?,
        form_two,
        max_lines,
    })
}

fn read(file: &Option<String>) -> std::io::Result<Vec<u8>> {
    let mut bytes = Vec::new();
    let mut file = match file {
        Some(name) => File::open(name)?,
        // As a File, a redirected standard input tells its size.
        None => File::from(std::io::stdin().as_fd().try_clone_to_owned()?),
    };
    if let Ok(known) = file.metadata() {
        if known.is_file() && known.len() > 1 << 22 {
            bytes.reserve_exact(known.len() as usize + 1);
            huge_pages(&mut bytes);
        }
    }
    file.read_to_end(&mut bytes)?;
    Ok(bytes)
}

/// Asks Linux for huge pages under the room of a vector: fewer page faults. Advice
/// alone; a refusal changes nothing.
fn huge_pages(bytes: &mut Vec<u8>) {
    #[cfg(target_os = "linux")]
    {
        extern "C" {
            fn madvise(from: *mut u8, bytes: usize, advice: i32) -> i32;
        }
        const PAGE: usize = 4096;
        const HUGE: i32 = 14;
        let skip = bytes.as_ptr().align_offset(PAGE);
        if bytes.capacity() > skip {
            // The range lies inside the vector's own allocation.
            unsafe {
                madvise(
                    bytes.as_mut_ptr().add(skip),
                    (bytes.capacity() - skip) / PAGE * PAGE,
                    HUGE,
                )
            };
        }
    }
}

fn run(job: &Job) -> Result<(), Fault> {
    let input = read(&job.file).map_err(|_| Fault::ReadFault)?;
    let mut x = parse(&input, job.max_lines)?;
    narrow(&mut x, job.from, job.to)?;
    x.tiplocs.sort_unstable();
    x.tiplocs.dedup();
    x.assocs.sort_unstable_by(|a, b| a.key.cmp(&b.key));
    x.scheds.sort_unstable_by_key(|s| s.uid);

    let mut solver = Solver::new(x.window, job.form_two);
    let mut from = 0;
    for group in x.assocs.chunk_by(|a, b| a.key == b.key) {
        solver
            .solve(&Assocs(group), from)
            .map_err(|day| Fault::AmbiguousAssociation(group[0].key, day))?;
        from += group.len() as u32;
    }
    let assoc_runs = std::mem::take(&mut solver.runs);
    let mut from = 0;
    for group in x.scheds.chunk_by(|a, b| a.uid == b.uid) {
        solver
            .solve(&Scheds(group, &x), from)
            .map_err(|day| Fault::AmbiguousTrain(group[0].uid, day))?;
        from += group.len() as u32;
    }
    let runs = solver.runs;

    let stdout = std::io::stdout()
        .as_fd()
        .try_clone_to_owned()
        .map_err(|_| Fault::WriteFault)?;
    let mut out = Out {
        file: File::from(stdout),
        buffer: Vec::with_capacity(BUFFER),
    };
    if job.check {
        let (t, a, s) = (x.tiplocs.len(), assoc_runs.len(), runs.len());
        let text = format!("accepted: {t} tiplocs, {a} associations, {s} schedules\n");
        out.file
            .write_all(text.as_bytes())
            .map_err(|_| Fault::WriteFault)?;
    } else {
        write(&mut out, &x, &assoc_runs, &runs).map_err(|_| Fault::WriteFault)?;
    }
    // Nothing is freed; the process ends.
    std::process::exit(0)
}

const USAGE: &str = "usage: normalise|check [--from D] [--to D] [--form 1|2] [FILE]\n";

fn main() {
    let words: Vec<String> = std::env::args_os()
        .skip(1)
        .map(|w| w.to_string_lossy().into_owned())
        .collect();
    let (text, status) = match job_of(&words) {
        Ok(job) => match run(&job) {
            Ok(()) => (Vec::new(), 0),
            Err(fault) => (fault.text(), fault.status()),
        },
        Err(JobFault::Help) => {
            print!("{USAGE}");
            (Vec::new(), 0)
        }
        Err(JobFault::Usage) => (USAGE.into(), 2),
        Err(JobFault::BadDate) => (b"cif: bad date\n".to_vec(), 2),
    };
    let _ = std::io::stderr().write_all(&text);
    std::process::exit(status);
}
