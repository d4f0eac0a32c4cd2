//! Request 11: the widest gap of the last 32.

/// "A state holds the latest 32 gaps as fractions".
const HELD: usize = 32;

/// A gap as it arrives.
#[derive(Clone, Copy)]
struct Gap {
    numerator: i64,
    denominator: u64,
}

impl Gap {
    /// "14 exactly for a numerator below 0 or from 2^48, or a denominator of 0 or from 2^32".
    fn is_allowed(&self) -> bool {
        (0..1 << 48).contains(&self.numerator) && (1..1 << 32).contains(&self.denominator)
    }

    /// By cross products, which are exact: they are below 2^80.
    fn is_below(&self, other: &Gap) -> bool {
        i128::from(self.numerator) * i128::from(other.denominator)
            < i128::from(other.numerator) * i128::from(self.denominator)
    }
}

/// The gaps that are held, the newest first.
#[derive(Default)]
struct Window(Vec<Gap>);

impl Window {
    /// "a new one pushes the oldest out, and the call returns the widest held and its age (accepted
    /// arrivals since it), the newest on ties"; none at refusal 14, which leaves the state unchanged.
    fn arrive(&mut self, gap: Gap) -> Option<(Gap, usize)> {
        if !gap.is_allowed() {
            return None;
        }
        self.0.insert(0, gap);
        self.0.truncate(HELD);
        let mut widest = (gap, 0);
        for (age, held) in self.0.iter().enumerate() {
            if widest.0.is_below(held) {
                widest = (*held, age);
            }
        }
        Some(widest)
    }
}

/// The outcomes of arrivals of 16 bytes each, from an empty state. Bytes after the last whole arrival
/// are ignored.
pub fn window(arrivals: &[u8]) -> String {
    let mut window = Window::default();
    let outcome = |bytes: &[u8]| {
        let (numerator, denominator) = bytes.split_at(8);
        let gap = Gap {
            numerator: i64::from_le_bytes(numerator.try_into().expect("8 bytes")),
            denominator: u64::from_le_bytes(denominator.try_into().expect("8 bytes")),
        };
        match window.arrive(gap) {
            Some((widest, age)) => format!("{}/{} {age}", widest.numerator, widest.denominator),
            None => "14".to_string(),
        }
    };
    let outcomes: Vec<String> = arrivals.chunks_exact(16).map(outcome).collect();
    format!("window {}", outcomes.join("; "))
        .trim_end()
        .to_string()
}
