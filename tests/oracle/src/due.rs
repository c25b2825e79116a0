//! What RULES, part A, demands of the reader here: the numbers that stop a reading (2 and 12 to 20) laid over the
//! counts of the Rust's own run. ShortRoom (1) is the caller's affair.

use judge::answer::Refusal;

use crate::measure::Measure;
use crate::tape::Step;

const PICKLE: usize = 65_536;
const STACK: usize = 2_048;
const MARKS: usize = 256;
const MEMO: usize = 1_024;
const NODES: usize = 4_096;
const LINKS: usize = 8_192;
const DEPTH: u64 = 64;
const VALUES: u64 = 2_048;
const TEXT: u64 = 65_536;

/// Largest w, and the range of e, of a float literal.
const WHOLE: u64 = 1 << 53;
const TENS: std::ops::RangeInclusive<i64> = -22..=22;

/// A run of the Rust on a pickle with its counts before each opcode. `end` is the measure at STOP, or the refusal,
/// which then belongs to the last step.
pub struct Run<'a> {
    pub steps: &'a [Step],
    pub end: Result<Measure, Refusal>,
    pub left: usize,
}

/// Before the first opcode.
pub fn too_long(data: &[u8]) -> bool {
    data.len() > PICKLE
}

/// The refusal due, the Rust's own included, or nothing. An error is a literal that the Rust takes against its form.
pub fn due(run: &Run, whole: bool) -> Result<Option<Refusal>, &'static str> {
    // An opcode that went through has a step after it, which holds the counts that it leaves.
    for pair in run.steps.windows(2) {
        if let Some(number) = after_opcode(&pair[0], &pair[1])? {
            return Ok(Some((number, 0)));
        }
    }
    Ok(match &run.end {
        Err(refusal) => Some(*refusal),
        Ok(measure) => after_stop(measure, whole && run.left > 0).map(|number| (number, 0)),
    })
}

fn after_opcode(step: &Step, next: &Step) -> Result<Option<u64>, &'static str> {
    if let Some(line) = &step.float {
        if float_outside(line)? {
            return Ok(Some(20));
        }
    }
    let counts = [(next.links, LINKS, 16), (next.nodes, NODES, 15), (next.stack, STACK, 12), (next.marks, MARKS, 13),
        (next.memo, MEMO, 14)];
    Ok(counts.into_iter().find(|(count, most, _)| count > most).map(|(_, _, number)| number))
}

fn after_stop(measure: &Measure, left: bool) -> Option<u64> {
    if measure.depth > DEPTH {
        Some(17)
    } else if measure.values > VALUES {
        Some(18)
    } else if measure.text > TEXT {
        Some(19)
    } else if left {
        Some(11)
    } else {
        None
    }
}

/// Whether a literal that the Rust has parsed is outside the floats of RULES A7.5: a name, or a number w * 10^e, w not
/// 0, with w or e out of range. w is over all digits written, e the exponent less the digits after the point.
pub fn float_outside(line: &[u8]) -> Result<bool, &'static str> {
    let text = std::str::from_utf8(line).map_err(|_| "not UTF-8")?.trim();
    let text = text.strip_prefix(['+', '-']).unwrap_or(text);
    if ["inf", "infinity", "nan"].iter().any(|name| text.eq_ignore_ascii_case(name)) {
        return Ok(true);
    }
    let (number, exponent) = match text.split_once(['e', 'E']) {
        Some((number, exponent)) => (number, exponent_of(exponent)?),
        None => (text, 0),
    };
    let (before, after) = number.split_once('.').unwrap_or((number, ""));
    let digits = before.bytes().chain(after.bytes());
    if before.len() + after.len() == 0 || !digits.clone().all(|byte| byte.is_ascii_digit()) {
        return Err("not a number's form");
    }
    let w = saturating(digits);
    let e = exponent - after.len() as i64;
    Ok(w != 0 && (w > WHOLE || !TENS.contains(&e)))
}

fn exponent_of(text: &str) -> Result<i64, &'static str> {
    let digits = text.strip_prefix(['+', '-']).unwrap_or(text);
    if digits.is_empty() || !digits.bytes().all(|byte| byte.is_ascii_digit()) {
        return Err("not an exponent's form");
    }
    // At most 2^53 + 1, so neither the sign nor the digits after the point can make it wrap.
    let size = saturating(digits.bytes()) as i64;
    Ok(if text.starts_with('-') { -size } else { size })
}

/// The number that digits write, any above 2^53 being 2^53 + 1: out of range as w, and as an exponent out of range
/// whatever digits follow a point, a pickle being far shorter.
fn saturating(digits: impl Iterator<Item = u8>) -> u64 {
    digits.fold(0, |sum: u64, digit| (sum * 10 + u64::from(digit - b'0')).min(WHOLE + 1))
}
