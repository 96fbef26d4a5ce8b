//! Why an input is refused, the text of it, and the status.

use crate::days::yymmdd;
use crate::records::AssocKey;

#[derive(Clone, Copy, PartialEq, Debug)]
pub enum Reason {
    BadLength,
    BadByte,
    UnknownRecord,
    OutOfOrder,
    NotFull,
    BadDate,
    OpenEnd,
    DatesReversed,
    BadDays,
    BankHoliday,
    BadStp,
    BadTime,
    Truncated,
    TooManyLines,
}

pub enum Fault {
    Refused(u64, Reason),
    AmbiguousAssociation(AssocKey, u16),
    AmbiguousTrain(u64, u16),
    OutsideWindow,
    WindowReversed,
    ReadFault,
    WriteFault,
}

impl Fault {
    pub fn text(&self) -> Vec<u8> {
        match self {
            Fault::Refused(line, why) => format!("cif: line {line}: {why:?}\n").into_bytes(),
            Fault::AmbiguousAssociation(key, day) => {
                let mut text = b"cif: Ambiguous: association ".to_vec();
                for (at, len) in [(0, 6), (6, 6), (12, 7), (19, 1), (20, 1)] {
                    text.push(b'[');
                    text.extend_from_slice(&key[at..at + len]);
                    text.push(b']');
                }
                text.extend_from_slice(b" on ");
                text.extend_from_slice(&yymmdd(*day));
                text.push(b'\n');
                text
            }
            Fault::AmbiguousTrain(uid, day) => {
                let mut text = b"cif: Ambiguous: train [".to_vec();
                text.extend_from_slice(&uid.to_be_bytes()[..6]);
                text.extend_from_slice(b"] on ");
                text.extend_from_slice(&yymmdd(*day));
                text.push(b'\n');
                text
            }
            Fault::OutsideWindow => b"cif: OutsideWindow\n".to_vec(),
            Fault::WindowReversed => b"cif: WindowReversed\n".to_vec(),
            Fault::ReadFault => b"cif: ReadFault\n".to_vec(),
            Fault::WriteFault => b"cif: WriteFault\n".to_vec(),
        }
    }

    pub fn status(&self) -> i32 {
        match self {
            Fault::ReadFault | Fault::WriteFault => 4,
            _ => 3,
        }
    }
}
