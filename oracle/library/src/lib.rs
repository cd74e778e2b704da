//! The proved library, through its C interface (`docs/hosts.md`).

#[cfg(feature = "driver")]
pub mod driver;
mod guarded;

use cells::Rule;
pub use guarded::{Answer, Guarded};

mod c {
    /// A slice crosses as a pointer and a length.
    pub type Call = unsafe extern "C" fn(*const u8, usize, *mut u8, usize) -> i32;

    unsafe extern "C" {
        pub fn javundiru_sink(plan: *const u8, plan_len: usize, out: *mut u8, out_len: usize) -> i32;
        pub fn javundiru_grow(plan: *const u8, plan_len: usize, out: *mut u8, out_len: usize) -> i32;
        pub fn javundiru_hint(plan: *const u8, plan_len: usize, out: *mut u8, out_len: usize) -> i32;
    }
}

/// Calls the rule on a packed plan, under the catalogue set.
pub fn call(rule: Rule, plan: &[u8], out: &mut [u8]) -> i32 {
    let call: c::Call = match rule {
        Rule::Sink => c::javundiru_sink,
        Rule::Grow => c::javundiru_grow,
        Rule::Hint => c::javundiru_hint,
    };
    // SAFETY: the library reads `plan.len()` bytes at `plan` and writes `out.len()` bytes at `out`; two slices, one of them
    // mutable, do not overlap, and a slice's pointer is never null.
    unsafe { call(plan.as_ptr(), plan.len(), out.as_mut_ptr(), out.len()) }
}
