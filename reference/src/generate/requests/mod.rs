//! Records for the requests of document 02.

mod adjusted;
mod empty_region;
mod equalities;
mod for_c;
mod joining_rules;
mod notes;
mod reports;
mod sparse_orders;
mod sums;
mod superseding;
mod symmetries;
mod wide_factors;
mod windows;

use crate::generate::accepted::case;
use crate::generate::blocks::valid_draft;
use crate::generate::certificates::{as_record, streams};
use crate::generate::changes::{change_case, CHANGES};
use crate::generate::damage::{self, damaged};
use crate::generate::rng::Rng;
use crate::records::{
    Record, ADJUSTED, BLOCKS, CHECK, OFFICE, PAIR, RECORD, REPORT, SUM, SYMMETRIES, TIGHTER, WINDOW,
};

pub use reports::packed;

/// A call that a request added.
pub struct Call {
    pub kind: u8,
    /// The records of the corpus that are made for it.
    pub special: fn() -> Vec<Record>,
    /// A random record, with commands of some of these requests.
    pub random: fn(&mut Rng, Vec<&'static Change>) -> Record,
    /// How many of these the corpus has.
    pub count: usize,
}

/// The commands of a problem and of its two certificates.
pub type Streams = [Vec<Vec<u8>>; 3];

/// What a request does to the calls that were there before it.
pub struct Change {
    /// The kinds of the calls that it changes, in the order of the corpus: those of document 01, and of
    /// the requests that landed before it.
    pub kinds: &'static [u8],
    /// The records of the corpus of this kind that are made for it.
    pub special: fn(u8) -> Vec<Record>,
    /// Puts its commands in, at random.
    pub put: fn(&mut Rng, &mut Streams),
    /// How many random records of each kind the corpus has of it.
    pub count: usize,
}

/// A request that has landed, as a call of its own or as a change of the others.
pub enum Landed {
    Call(Call),
    Change(Change),
}

/// The requests in the order in which they landed. The corpus has them in the same order, so that the
/// records of one stand behind all that were there before it.
const LANDED: &[Landed] = &[
    Landed::Call(Call {
        kind: WINDOW,
        special: windows::special,
        random: windows::random,
        count: 250,
    }),
    Landed::Change(Change {
        kinds: &[BLOCKS, CHECK, PAIR],
        special: equalities::special,
        put: equalities::put,
        count: 200,
    }),
    Landed::Change(Change {
        kinds: &[PAIR],
        special: empty_region::special,
        put: empty_region::put,
        count: 300,
    }),
    Landed::Change(Change {
        kinds: &[CHECK, PAIR],
        special: wide_factors::special,
        put: wide_factors::put,
        count: 200,
    }),
    Landed::Call(Call {
        kind: TIGHTER,
        special: superseding::special,
        random: superseding::random,
        count: 300,
    }),
    Landed::Change(Change {
        kinds: &[BLOCKS, CHECK, PAIR, TIGHTER],
        special: joining_rules::special,
        put: joining_rules::put,
        count: 200,
    }),
    Landed::Change(Change {
        kinds: &[BLOCKS, CHECK, PAIR, TIGHTER],
        special: sparse_orders::special,
        put: sparse_orders::put,
        count: 200,
    }),
    Landed::Call(Call {
        kind: SYMMETRIES,
        special: symmetries::special,
        random: symmetries::random,
        count: 250,
    }),
    Landed::Call(Call {
        kind: REPORT,
        special: reports::special,
        random: reports::random,
        count: 200,
    }),
    Landed::Call(Call {
        kind: RECORD,
        special: for_c::special,
        random: for_c::random,
        count: 250,
    }),
    Landed::Call(Call {
        kind: SUM,
        special: sums::special,
        random: sums::random,
        count: 300,
    }),
    Landed::Call(Call {
        kind: ADJUSTED,
        special: adjusted::special,
        random: adjusted::random,
        count: 300,
    }),
    Landed::Call(Call {
        kind: OFFICE,
        special: notes::special,
        random: notes::random,
        count: 300,
    }),
];

/// The seed of the corpus.
const SEED: u64 = 20_481;

/// The records of the corpus for these kinds.
pub fn corpus(kinds: &str) -> Vec<Record> {
    let asked = |kind: &u8| kinds.as_bytes().contains(kind);
    let mut all = Vec::new();
    for (number, landed) in LANDED.iter().enumerate() {
        let seeded = |kind| Rng::new(SEED + 256 * number as u64 + u64::from(kind));
        match landed {
            Landed::Call(call) if asked(&call.kind) => {
                let rng = &mut seeded(call.kind);
                all.extend((call.special)());
                let before = changes_before(call.kind);
                all.extend((0..call.count).map(|_| (call.random)(rng, before.clone())));
            }
            Landed::Call(_) => {}
            Landed::Change(change) => {
                for &kind in change.kinds.iter().filter(|kind| asked(kind)) {
                    let rng = &mut seeded(kind);
                    all.extend((change.special)(kind));
                    all.extend((0..change.count).map(|_| with(rng, kind, vec![change])));
                }
            }
        }
    }
    all
}

/// A fresh record: of the call of this kind, when a request added it; otherwise, of a call of
/// document 01, now and then with commands of some of the requests.
pub fn record(rng: &mut Rng, kind: u8) -> Option<Record> {
    let changes = changes_of(kind);
    if call(kind).is_some() {
        return Some(with(rng, kind, changes));
    }
    if !rng.once_in(2) {
        return None;
    }
    let mut changes = changes;
    rng.shuffle(&mut changes);
    changes.truncate(rng.between(1, 3));
    Some(with(rng, kind, changes))
}

/// A random record of a call with these requests in it; the call of a request takes some of them.
fn with(rng: &mut Rng, kind: u8, changes: Vec<&'static Change>) -> Record {
    match call(kind) {
        Some(call) => (call.random)(rng, changes),
        None => changed(rng, kind, &changes),
    }
}

/// The call of this kind, when a request added it.
fn call(kind: u8) -> Option<&'static Call> {
    LANDED.iter().find_map(|landed| match landed {
        Landed::Call(call) if call.kind == kind => Some(call),
        _ => None,
    })
}

fn as_change(landed: &'static Landed) -> Option<&'static Change> {
    match landed {
        Landed::Change(change) => Some(change),
        Landed::Call(_) => None,
    }
}

/// The changes that landed before the call of this kind. The records of the corpus for the call draw
/// on these alone, so that they stay when another request lands.
fn changes_before(kind: u8) -> Vec<&'static Change> {
    let before = |landed: &&Landed| !matches!(landed, Landed::Call(call) if call.kind == kind);
    let landed = LANDED.iter().take_while(before);
    landed.filter_map(as_change).collect()
}

/// The changes that a call of this kind meets: those that name it, and those that landed before it.
fn changes_of(kind: u8) -> Vec<&'static Change> {
    let mut changes = match call(kind) {
        Some(_) => changes_before(kind),
        None => Vec::new(),
    };
    let named = |change: &&Change| change.kinds.contains(&kind);
    changes.extend(LANDED.iter().filter_map(as_change).filter(named));
    changes
}

/// A record with these requests in it, now and then with a damaged stream.
fn changed(rng: &mut Rng, kind: u8, changes: &[&Change]) -> Record {
    let (mut streams, focus) = drawn(rng, kind);
    for change in changes {
        (change.put)(rng, &mut streams);
    }
    let mut bytes = streams.each_ref().map(|commands| commands.concat());
    if rng.once_in(6) {
        let stream = if kind == BLOCKS { 0 } else { rng.below(3) };
        let way = rng.below(damage::WAYS);
        let stream_kind = [damage::PROBLEM, damage::CERTIFICATE][stream.min(1)];
        bytes[stream] = damaged(rng, stream_kind, &streams[stream], way);
    }
    match kind {
        BLOCKS => Record::blocks(bytes[0].clone()),
        _ => as_record(kind, focus, bytes),
    }
}

/// The streams of a problem with certificates that hold, or nearly do; and which one a check takes.
fn drawn(rng: &mut Rng, kind: u8) -> (Streams, usize) {
    if kind == BLOCKS && rng.once_in(2) {
        let problem = valid_draft(rng).mixed_commands(rng);
        return ([problem, Vec::new(), Vec::new()], 0);
    }
    let mut case = case(rng);
    if rng.once_in(3) {
        let change = rng.below(CHANGES);
        change_case(rng, &mut case, change);
    }
    let mut streams = streams(&case);
    if rng.once_in(2) {
        streams[0] = case.problem.mixed_commands(rng);
    }
    (streams, case.focus)
}

/// A record of the pair with some of these requests in it.
fn pair_with_some(rng: &mut Rng, changes: &[&'static Change]) -> Record {
    let mut changes = changes.to_vec();
    rng.shuffle(&mut changes);
    changes.truncate(rng.below(4));
    changed(rng, PAIR, &changes)
}

/// The places of the commands with this first byte.
fn places(commands: &[Vec<u8>], byte: u8) -> Vec<usize> {
    let all = commands.iter().enumerate();
    let found = all.filter(|(_, command)| command[0] == byte);
    found.map(|(place, _)| place).collect()
}
