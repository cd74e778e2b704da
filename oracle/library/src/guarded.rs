//! Calls between guard bytes: what a call writes outside its output, or into its plan, is found.

/// How many guard bytes stand on each side.
const GUARD: usize = 32;
const GUARD_BYTE: u8 = 0xa5;
/// What the output holds before a call; a byte that the call leaves out keeps it.
const STALE: u8 = 0x5a;

/// What a call answered, and the output that it left.
#[derive(Clone, Copy, Debug, PartialEq, Eq)]
pub struct Answer<'a> {
    pub answer: i32,
    pub out: &'a [u8],
    /// The plan and the bytes around plan and output are as they were.
    pub untouched: bool,
}

/// Memory for calls, used again and again.
#[derive(Default)]
pub struct Guarded {
    plan: Vec<u8>,
    out: Vec<u8>,
}

impl Guarded {
    pub fn new() -> Self {
        Self::default()
    }

    pub fn call(&mut self, plan: &[u8], out_len: usize, call: impl FnOnce(&[u8], &mut [u8]) -> i32) -> Answer<'_> {
        lay_out(&mut self.plan, plan.len(), |inner| inner.copy_from_slice(plan));
        lay_out(&mut self.out, out_len, |inner| inner.fill(STALE));
        let answer = call(&self.plan[GUARD..GUARD + plan.len()], &mut self.out[GUARD..GUARD + out_len]);
        let inner_plan = &self.plan[GUARD..GUARD + plan.len()];
        let untouched = inner_plan == plan && guards_stand(&self.plan) && guards_stand(&self.out);
        Answer { answer, out: &self.out[GUARD..GUARD + out_len], untouched }
    }
}

fn lay_out(memory: &mut Vec<u8>, length: usize, fill: impl FnOnce(&mut [u8])) {
    memory.resize(length + 2 * GUARD, 0);
    memory[..GUARD].fill(GUARD_BYTE);
    memory[GUARD + length..].fill(GUARD_BYTE);
    fill(&mut memory[GUARD..GUARD + length]);
}

fn guards_stand(memory: &[u8]) -> bool {
    let (front, back) = (&memory[..GUARD], &memory[memory.len() - GUARD..]);
    front.iter().chain(back).all(|byte| *byte == GUARD_BYTE)
}
