//! Streams with something wrong in them, of both kinds.

use crate::generate::rng::Rng;

/// How many ways of damage there are.
pub const WAYS: usize = 12;

/// Which stream the commands belong to: its first byte and its last.
#[derive(Clone, Copy)]
pub struct Kind {
    pub first: u8,
    pub end: u8,
}

/// Problem streams.
pub const PROBLEM: Kind = Kind {
    first: 0x01,
    end: 0x06,
};

/// Certificate streams.
pub const CERTIFICATE: Kind = Kind {
    first: 0x10,
    end: 0x13,
};

/// The stream of these commands, damaged in the way of this number.
pub fn damaged(rng: &mut Rng, kind: Kind, commands: &[Vec<u8>], way: usize) -> Vec<u8> {
    let mut commands = commands.to_vec();
    let place = rng.below(commands.len());
    match way {
        0 => return truncated(rng, &commands),
        1 => return changed(rng, &commands),
        2 => return longer(rng, kind, &commands),
        3 => {
            commands.insert(place, unknown(rng, kind));
        }
        4 => {
            let first = commands[0].clone();
            commands.insert(1 + rng.below(commands.len()), first);
        }
        5 => {
            commands.remove(place);
        }
        6 => {
            let again = commands[place].clone();
            commands.insert(rng.below(commands.len()), again);
        }
        7 => commands.swap(place, rng.below(place + 1)),
        8 => {
            commands.insert(place, vec![kind.end]);
        }
        9 => {
            commands.truncate(place);
            commands.push(vec![kind.first]);
        }
        10 => return inserted(rng, &commands),
        _ => return noise(rng, kind),
    }
    commands.concat()
}

/// Cut at any point.
fn truncated(rng: &mut Rng, commands: &[Vec<u8>]) -> Vec<u8> {
    let mut bytes = commands.concat();
    bytes.truncate(rng.below(bytes.len()));
    bytes
}

/// One byte changed: to any value, or by one, or in one bit.
fn changed(rng: &mut Rng, commands: &[Vec<u8>]) -> Vec<u8> {
    let mut bytes = commands.concat();
    let place = rng.below(bytes.len());
    bytes[place] = match rng.below(4) {
        0 => rng.byte(),
        1 => bytes[place].wrapping_add(1),
        2 => bytes[place].wrapping_sub(1),
        _ => bytes[place] ^ (1 << rng.below(8)),
    };
    bytes
}

/// Bytes after the end.
fn longer(rng: &mut Rng, kind: Kind, commands: &[Vec<u8>]) -> Vec<u8> {
    let mut bytes = commands.concat();
    for _ in 0..rng.between(1, 4) {
        let any = rng.byte();
        bytes.push(*rng.pick(&[any, kind.first, kind.end, 0, 3]));
    }
    bytes
}

/// A byte that begins no command of this stream.
fn unknown(rng: &mut Rng, kind: Kind) -> Vec<u8> {
    loop {
        let any = rng.byte();
        let byte = *rng.pick(&[any, 0, 7, 0x0F, 0x14, 0x10, 0x13, 1, 6, 255]);
        if !(kind.first..=kind.end).contains(&byte) {
            return vec![byte];
        }
    }
}

/// One byte put in anywhere.
fn inserted(rng: &mut Rng, commands: &[Vec<u8>]) -> Vec<u8> {
    let mut bytes = commands.concat();
    let byte = rng.byte();
    bytes.insert(rng.below(bytes.len() + 1), byte);
    bytes
}

/// Random bytes, most of them small, with a right first command or without.
fn noise(rng: &mut Rng, kind: Kind) -> Vec<u8> {
    let mut bytes = Vec::new();
    if rng.once_in(2) {
        bytes.push(kind.first);
    }
    for _ in 0..rng.below(60) {
        let (any, small) = (rng.byte(), rng.byte() % 4);
        let command = kind.first + rng.byte() % (kind.end - kind.first + 1);
        bytes.push(*rng.pick(&[any, small, small, command]));
    }
    bytes
}
