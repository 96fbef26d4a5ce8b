//! The records of an extract, read from its lines.

use crate::days::{ddmmyy, from_ddmmyy, from_yymmdd};
use crate::lines::*;
use crate::refusals::{Fault, Reason};

#[derive(Clone, Copy, PartialEq)]
pub struct Window {
    pub first: u16,
    pub last: u16,
}

/// Base UID, associated UID, location, base suffix, associated suffix as written.
pub type AssocKey = [u8; 21];

#[derive(Clone, Copy)]
pub struct Assoc {
    pub key: AssocKey,
    /// Category, date indicator, diagram type, association type as written.
    pub body: [u8; 5],
    pub when: When,
}

#[derive(Clone, Copy)]
pub struct Sched {
    /// The six bytes, big-endian in the high bytes.
    pub uid: u64,
    /// Where the plain BS line stands; with ARENA set, in the arena.
    pub at: u64,
    /// Lines from BS to LT.
    pub lines: u32,
    pub when: When,
}

const ARENA: u64 = 1 << 63;

#[derive(Clone, Copy)]
pub struct When {
    pub first: u16,
    pub last: u16,
    pub days: u8,
    /// 0 to 3 for C, N, O, P.
    pub rank: u8,
}

pub struct Extract<'a> {
    pub input: &'a [u8],
    pub arena: Vec<u8>,
    pub header: [u8; 80],
    pub window: Window,
    pub tiplocs: Vec<&'a [u8; 70]>,
    pub assocs: Vec<Assoc>,
    pub scheds: Vec<Sched>,
}

impl Extract<'_> {
    pub fn lines(&self, sched: &Sched) -> &[u8] {
        let from = (sched.at & !ARENA) as usize;
        let bytes = if sched.at & ARENA == 0 {
            self.input
        } else {
            &self.arena
        };
        &bytes[from..from + 81 * sched.lines as usize]
    }
}

#[derive(Clone, Copy, PartialEq)]
enum After {
    Start,
    Head,
    Assoc,
    Basic,
    Extra,
    BasicC,
    ExtraC,
    Journey,
    Terminus,
    Trailer,
}

fn dates(line: &[u8; 80], at: usize) -> Result<(u16, u16), Reason> {
    let first = from_yymmdd(&line[at..at + 6]).ok_or(Reason::BadDate)?;
    if &line[at + 6..at + 12] == b"999999" {
        return Err(Reason::OpenEnd);
    }
    let last = from_yymmdd(&line[at + 6..at + 12]).ok_or(Reason::BadDate)?;
    if first > last {
        return Err(Reason::DatesReversed);
    }
    Ok((first, last))
}

fn days(line: &[u8; 80], at: usize) -> Result<u8, Reason> {
    let mut mask = 0;
    for i in 0..7 {
        match line[at + i] {
            b'0' => {}
            b'1' => mask |= 1 << i,
            _ => return Err(Reason::BadDays),
        }
    }
    Ok(mask)
}

fn rank(letter: u8) -> Result<u8, Reason> {
    match letter {
        b'C' => Ok(0),
        b'N' => Ok(1),
        b'O' => Ok(2),
        b'P' => Ok(3),
        _ => Err(Reason::BadStp),
    }
}

/// The schedule that is being read.
struct Open {
    uid: u64,
    when: When,
    at: u64,
    lines: u32,
}

pub fn parse(input: &[u8], max_lines: u64) -> Result<Extract<'_>, Fault> {
    let mut x = Extract {
        input,
        arena: Vec::new(),
        header: [b' '; 80],
        window: Window { first: 0, last: 0 },
        tiplocs: Vec::new(),
        assocs: Vec::new(),
        scheds: Vec::new(),
    };
    let mut after = After::Start;
    let mut open = Open {
        uid: 0,
        when: When {
            first: 0,
            last: 0,
            days: 0,
            rank: 0,
        },
        at: 0,
        lines: 0,
    };
    let mut pos = 0usize;
    let mut number = 0u64;
    while pos < input.len() {
        number += 1;
        macro_rules! refuse {
            ($why:expr) => {
                return Err(Fault::Refused(number, $why))
            };
        }
        if number > max_lines {
            refuse!(Reason::TooManyLines);
        }
        let rest = &input[pos..];
        let Some(line) = rest.first_chunk::<80>() else {
            refuse!(Reason::BadLength)
        };
        // `lf`: the 81 bytes can stand in the output as they are.
        let (next, lf) = match rest.get(80) {
            Some(b'\n') => (pos + 81, true),
            None => (pos + 80, false),
            Some(b'\r') if rest.get(81) == Some(&b'\n') => (pos + 82, false),
            _ => refuse!(Reason::BadLength),
        };
        let Some(blank) = classify(line) else {
            // An LF inside, or a CR directly before the LF, ends a shorter content.
            let shorter = line.contains(&b'\n') || (lf && line[79] == b'\r');
            refuse!(if shorter {
                Reason::BadLength
            } else {
                Reason::BadByte
            })
        };
        // A line of a journey or a BX: kept where it stands if it is plain.
        macro_rules! body_line {
            ($is_plain:expr, $texts:expr, $activities:expr, $spare:expr) => {
                if open.when.rank != 0 {
                    let here = lf && $is_plain;
                    if open.at & ARENA == 0 && !here {
                        let from = x.arena.len() as u64;
                        x.arena.extend_from_slice(&input[open.at as usize..pos]);
                        open.at = from | ARENA;
                    }
                    if open.at & ARENA != 0 {
                        x.arena
                            .extend_from_slice(&plain(line, $texts, $activities, $spare));
                        x.arena.push(b'\n');
                    }
                    open.lines += 1;
                }
            };
        }
        match [line[0], line[1]] {
            [b'L', b'I'] => {
                if after != After::Journey {
                    refuse!(Reason::OutOfOrder);
                }
                let b = blank.low;
                if !(work_time(line, b, 10)
                    && work_time(line, b, 15)
                    && work_time(line, b, 20)
                    && public_time(line, b, 25)
                    && public_time(line, b, 29))
                {
                    refuse!(Reason::BadTime);
                }
                body_line!(li_plain(blank), LI_TEXTS, Some(42), 60);
            }
            [b'L', b'O'] => {
                if !matches!(
                    after,
                    After::Basic | After::Extra | After::BasicC | After::ExtraC
                ) {
                    refuse!(Reason::OutOfOrder);
                }
                if !(work_time(line, blank.low, 10) && public_time(line, blank.low, 15)) {
                    refuse!(Reason::BadTime);
                }
                body_line!(lo_plain(blank), LO_TEXTS, Some(29), 43);
                after = After::Journey;
            }
            [b'L', b'T'] => {
                if after != After::Journey {
                    refuse!(Reason::OutOfOrder);
                }
                if !(work_time(line, blank.low, 10) && public_time(line, blank.low, 15)) {
                    refuse!(Reason::BadTime);
                }
                body_line!(lt_plain(blank), LT_TEXTS, Some(25), 37);
                if open.when.rank != 0 {
                    x.scheds.push(Sched {
                        uid: open.uid,
                        at: open.at,
                        lines: open.lines,
                        when: open.when,
                    });
                }
                after = After::Terminus;
            }
            [b'C', b'R'] => {
                if after != After::Journey {
                    refuse!(Reason::OutOfOrder);
                }
                let wide = blank.all();
                let is_plain = wide >> 75 == 0x1F
                    && CR_TEXTS.iter().all(|&(at, len)| left_wide(wide, at, len));
                body_line!(is_plain, CR_TEXTS, None, 75);
            }
            [b'B', b'S'] => {
                if !matches!(
                    after,
                    After::Terminus | After::BasicC | After::ExtraC | After::Assoc | After::Head
                ) {
                    refuse!(Reason::OutOfOrder);
                }
                if line[2] != b'N' {
                    refuse!(Reason::NotFull);
                }
                let parts = dates(line, 9).and_then(|(first, last)| {
                    let days = days(line, 21)?;
                    if line[28] != b' ' {
                        return Err(Reason::BankHoliday);
                    }
                    Ok(When {
                        first,
                        last,
                        days,
                        rank: rank(line[79])?,
                    })
                });
                let when = match parts {
                    Ok(when) => when,
                    Err(why) => refuse!(why),
                };
                let uid = u64::from_be_bytes([
                    line[3], line[4], line[5], line[6], line[7], line[8], 0, 0,
                ]);
                open = Open {
                    uid,
                    when,
                    at: pos as u64,
                    lines: 1,
                };
                if when.rank == 0 {
                    x.scheds.push(Sched {
                        uid,
                        at: 0,
                        lines: 0,
                        when,
                    });
                    after = After::BasicC;
                } else {
                    let wide = blank.all();
                    if !(lf && BS_TEXTS.iter().all(|&(at, len)| left_wide(wide, at, len))) {
                        open.at = x.arena.len() as u64 | ARENA;
                        x.arena.extend_from_slice(&plain(line, BS_TEXTS, None, 80));
                        x.arena.push(b'\n');
                    }
                    after = After::Basic;
                }
            }
            [b'B', b'X'] => {
                after = match after {
                    After::Basic => After::Extra,
                    After::BasicC => After::ExtraC,
                    _ => refuse!(Reason::OutOfOrder),
                };
                body_line!(bx_plain(blank), BX_TEXTS, None, 23);
            }
            [b'A', b'A'] => {
                if !matches!(after, After::Assoc | After::Head) {
                    refuse!(Reason::OutOfOrder);
                }
                if line[2] != b'N' {
                    refuse!(Reason::NotFull);
                }
                let parts = dates(line, 15).and_then(|(first, last)| {
                    Ok(When {
                        first,
                        last,
                        days: days(line, 27)?,
                        rank: rank(line[79])?,
                    })
                });
                let when = match parts {
                    Ok(when) => when,
                    Err(why) => refuse!(why),
                };
                let moved = plain(line, AA_TEXTS, None, 80);
                let mut key = [0; 21];
                key[..12].copy_from_slice(&moved[3..15]);
                key[12..].copy_from_slice(&moved[37..46]);
                let body = [moved[34], moved[35], moved[36], moved[46], moved[47]];
                x.assocs.push(Assoc { key, body, when });
                after = After::Assoc;
            }
            [b'T', b'I'] => {
                if after != After::Head {
                    refuse!(Reason::OutOfOrder);
                }
                x.tiplocs.push(line[2..72].try_into().unwrap());
            }
            [b'T', b'A' | b'D'] => {
                refuse!(if after == After::Head {
                    Reason::NotFull
                } else {
                    Reason::OutOfOrder
                })
            }
            [b'H', b'D'] => {
                if after != After::Start {
                    refuse!(Reason::OutOfOrder);
                }
                if line[46] != b'F' {
                    refuse!(Reason::NotFull);
                }
                let (Some(first), Some(last)) =
                    (from_ddmmyy(&line[48..54]), from_ddmmyy(&line[54..60]))
                else {
                    refuse!(Reason::BadDate)
                };
                if first > last {
                    refuse!(Reason::DatesReversed);
                }
                x.header[..60].copy_from_slice(&line[..60]);
                x.window = Window { first, last };
                after = After::Head;
            }
            [b'Z', b'Z'] => {
                if !matches!(
                    after,
                    After::Terminus | After::BasicC | After::ExtraC | After::Assoc | After::Head
                ) {
                    refuse!(Reason::OutOfOrder);
                }
                after = After::Trailer;
            }
            _ => refuse!(Reason::UnknownRecord),
        }
        pos = next;
    }
    if after != After::Trailer {
        return Err(Fault::Refused(number + 1, Reason::Truncated));
    }
    Ok(x)
}

pub fn narrow(x: &mut Extract, from: Option<u16>, to: Option<u16>) -> Result<(), Fault> {
    for day in [from, to].into_iter().flatten() {
        if day < x.window.first || day > x.window.last {
            return Err(Fault::OutsideWindow);
        }
    }
    let (first, last) = (from.unwrap_or(x.window.first), to.unwrap_or(x.window.last));
    if first > last {
        return Err(Fault::WindowReversed);
    }
    x.window = Window { first, last };
    x.header[48..54].copy_from_slice(&ddmmyy(first));
    x.header[54..60].copy_from_slice(&ddmmyy(last));
    Ok(())
}
