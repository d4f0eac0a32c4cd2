//! Request 02: the certificate that supersedes.

use super::calls::{close, judge, Check};
use super::certificate::LOWER;
use crate::refusal::{Refusal, DIFFERENT_SIDES, FIRST, SECOND};

/// "hands back the bytes of the tighter one"; "If only one is accepted, that one comes back. If
/// neither is, the first one's refusal comes".
pub fn tighter<'a>(problem: &[u8], first: &'a [u8], second: &'a [u8]) -> Result<&'a [u8], Refusal> {
    let closed = close(problem)?;
    let judged = (judge(&closed, first, FIRST), judge(&closed, second, SECOND));
    match judged {
        // "11 when both are accepted and their sides differ, .. stream 2 and place 0"
        (Ok(one), Ok(other)) if one.side != other.side => {
            Err(Refusal::new(DIFFERENT_SIDES, SECOND, 0))
        }
        (Ok(one), Ok(other)) if is_tighter(&other, &one) => Ok(second),
        (Ok(_), _) => Ok(first),
        (Err(_), Ok(_)) => Ok(second),
        (Err(refusal), Err(_)) => Err(refusal),
    }
}

/// "the larger lower bound or the smaller upper bound"
fn is_tighter(one: &Check, other: &Check) -> bool {
    if one.side == LOWER {
        other.bound.is_below(one.bound)
    } else {
        one.bound.is_below(other.bound)
    }
}
