//! Javundiru's rules on packed plans, under the operators of the catalogue.
//!
//! A packed plan has a record of 14 bytes for each node; `docs/records.md` has its fields. Each call writes all of `out`:
//! granted, the new plan and zeros behind it; refused, zeros.

use std::fmt;

/// How many bytes a record has.
pub const RECORD: usize = 14;

/// The most nodes that a plan may have.
pub const MAX_NODES: usize = 512;

/// How many bytes of output are asked for each node of the plan.
pub const NODE_ROOM: usize = 28;

/// Why a plan was refused, and where.
#[derive(Clone, Copy, PartialEq, Eq, Debug)]
pub struct Refused {
    /// The refusal's number, as `docs/refusals.md` has it.
    pub number: u8,
    /// The first node or record that gave rise to it, counted from 0, or 0 where none did.
    pub place: usize,
}

impl fmt::Display for Refused {
    fn fmt(&self, f: &mut fmt::Formatter<'_>) -> fmt::Result {
        let what = match self.number {
            1 => "the bytes are no records",
            2 => "no nodes, or too many",
            3 => "the output is too small",
            4 => "the nodes are not one tree",
            5 => "kind, parameter and child count do not fit",
            6 => "a number stands where it has no place",
            7 => "a partition count is out of range",
            8 => "a hint that the node above does not bear out",
            9 => "windows that cannot add up",
            10 => "a sum that is too large",
            _ => "refused",
        };
        write!(f, "{what}, at {}", self.place)
    }
}

impl std::error::Error for Refused {}

mod c {
    // A slice crosses as a pointer and a length.
    pub type Rule = unsafe extern "C" fn(*const u8, usize, *mut u8, usize) -> i32;

    extern "C" {
        pub fn javundiru_sink(plan: *const u8, len: usize, out: *mut u8, room: usize) -> i32;
        pub fn javundiru_grow(plan: *const u8, len: usize, out: *mut u8, room: usize) -> i32;
        pub fn javundiru_hint(plan: *const u8, len: usize, out: *mut u8, room: usize) -> i32;
    }
}

fn call(rule: c::Rule, plan: &[u8], out: &mut [u8]) -> Result<usize, Refused> {
    // SAFETY: the library reads `plan.len()` bytes at `plan` and writes `out.len()` bytes at `out`; two slices, one of them
    // mutable, do not overlap, and a slice's pointer is never null.
    let answer = unsafe { rule(plan.as_ptr(), plan.len(), out.as_mut_ptr(), out.len()) };
    match usize::try_from(answer) {
        Ok(count) => Ok(count),
        Err(_) => Err(Refused {
            number: (answer.unsigned_abs() / 8192) as u8,
            place: (answer.unsigned_abs() % 8192) as usize,
        }),
    }
}

/// Limits go down a plan as far as they can. Answers the new plan's node count.
pub fn sink(plan: &[u8], out: &mut [u8]) -> Result<usize, Refused> {
    call(c::javundiru_sink, plan, out)
}

/// A limit goes past windows, grown by what they look ahead. Answers the new plan's node count.
pub fn grow(plan: &[u8], out: &mut [u8]) -> Result<usize, Refused> {
    call(c::javundiru_grow, plan, out)
}

/// A limit becomes a hint on the distinct aggregates right below it. Answers the new plan's node count.
pub fn hint(plan: &[u8], out: &mut [u8]) -> Result<usize, Refused> {
    call(c::javundiru_hint, plan, out)
}

#[cfg(test)]
mod tests {
    use super::*;

    const LIMIT: [u8; RECORD] = [2, 4, 0, 2, 0, 0, 0, 0, 5, 0, 0, 0, 0, 2]; // G(2,5)
    const PROJECTION: [u8; RECORD] = [4, 4, 0, 0, 0, 0, 0, 0, 0, 0, 0, 0, 0, 0]; // P
    const SCAN: [u8; RECORD] = [16, 0, 0, 8, 0, 0, 0, 0, 0, 0, 0, 0, 0, 0]; // H1
    const SCAN_OF_7: [u8; RECORD] = [16, 0, 0, 10, 0, 0, 0, 0, 7, 0, 0, 0, 0, 0]; // H1[7]

    fn refused(number: u8, place: usize) -> Result<usize, Refused> {
        Err(Refused { number, place })
    }

    #[test]
    fn a_limit_sinks() {
        let plan = [LIMIT, PROJECTION, SCAN].concat();
        let mut out = [0xff; 100];
        assert_eq!(sink(&plan, &mut out), Ok(3));
        assert_eq!(out[..42], [PROJECTION, LIMIT, SCAN_OF_7].concat());
        assert!(out[42..].iter().all(|byte| *byte == 0));
    }

    #[test]
    fn grow_and_hint_leave_it() {
        let plan = [LIMIT, PROJECTION, SCAN].concat();
        let mut out = [0xff; 84];
        assert_eq!(grow(&plan, &mut out), Ok(3));
        assert_eq!(out[..42], plan);
        assert_eq!(hint(&plan, &mut out), Ok(3));
        assert_eq!(out[..42], plan);
    }

    #[test]
    fn refusals_leave_zeros() {
        let plan = [LIMIT, PROJECTION, SCAN].concat();
        let mut out = [0xff; 83];
        assert_eq!(sink(&plan, &mut out), refused(3, 0));
        assert_eq!(out, [0; 83]);
        assert_eq!(sink(&plan[..41], &mut out), refused(1, 0));
        assert_eq!(sink(&plan[..28], &mut out), refused(4, 2));
        assert_eq!(hint(&[], &mut out), refused(2, 0));
        assert_eq!(grow(&[0; 14 * 512 + 1], &mut out), refused(2, 0));
    }
}
