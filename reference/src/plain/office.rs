//! Request 10: notes that only the office sees.

use std::fmt::{Display, Formatter};

use super::calls::{check, Check};
use super::certificate::length;
use crate::records::hexadecimal;
use crate::refusal::{Refusal, FIRST, NOTES};

/// "Certificate command 40 carries 8 bytes of note".
const NOTE: u8 = 0x40;
const BYTES: usize = 8;

/// The check's verdict, the number of notes, and the buffer at exit.
pub struct Office {
    check: Check,
    notes: usize,
    buffer: Vec<u8>,
}

/// A certificate stream with its notes removed.
struct Removed {
    stream: Vec<u8>,
    /// The offset as sent of each byte that is left, and of the end.
    sent: Vec<usize>,
    notes: Vec<u8>,
}

/// "its verdict is the strict one on the stream with notes removed, except that places count the bytes
/// as sent"; "13 when the buffer can't hold all notes, stream 1 and place 0, after every refusal of the
/// strict check".
pub fn office(problem: &[u8], certificate: &[u8], lent: &[u8]) -> Result<Office, Refusal> {
    let removed = remove_notes(certificate);
    let as_sent = |refusal: Refusal| match refusal.stream {
        FIRST => Refusal {
            place: removed.sent[refusal.place],
            ..refusal
        },
        _ => refusal,
    };
    let check = check(problem, &removed.stream).map_err(as_sent)?;
    let mut buffer = lent.to_vec();
    let copied = buffer.get_mut(..removed.notes.len());
    let copied = copied.ok_or(Refusal::new(NOTES, FIRST, 0))?;
    copied.copy_from_slice(&removed.notes);
    Ok(Office {
        check,
        notes: removed.notes.len() / BYTES,
        buffer,
    })
}

/// Goes through the commands by their lengths. A 40 is a note "anywhere between commands after command
/// 10 and before command 13; elsewhere it is no note". From the first command on that is unknown, cut
/// or the end, all bytes stay. "A note cut short is refusal 2 at its start": the stream then ends
/// there.
fn remove_notes(bytes: &[u8]) -> Removed {
    let mut removed = Removed {
        stream: Vec::new(),
        sent: Vec::new(),
        notes: Vec::new(),
    };
    let mut place = 0;
    while let Some(&byte) = bytes.get(place) {
        if byte == NOTE && place > 0 {
            let Some(note) = bytes.get(place + 1..place + 1 + BYTES) else {
                break;
            };
            removed.notes.extend(note);
            place += 1 + BYTES;
            continue;
        }
        let goes_on = byte != 0x13 && (byte == 0x10 || place > 0);
        let next = length(byte).map(|length| place + length);
        let next = next.filter(|&next| goes_on && next <= bytes.len());
        let next = next.unwrap_or(bytes.len());
        removed.stream.extend(&bytes[place..next]);
        removed.sent.extend(place..next);
        place = next;
    }
    removed.sent.push(place);
    removed
}

impl Display for Office {
    fn fmt(&self, out: &mut Formatter) -> std::fmt::Result {
        let Check {
            side,
            bound,
            rounds,
            rule,
        } = self.check;
        write!(out, "office {side} {bound} rounds {rounds} rule {rule} ")?;
        write!(out, "notes {} {}", self.notes, hexadecimal(&self.buffer))
    }
}
