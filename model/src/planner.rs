//! What is compared: a planner behind the C interface, and the model in its place.

use crate::calls::{decode, Answer, Call, ANSWER_SIZE};
use crate::line::{Filling, Line};
use crate::plan::Plan;

/// A planner that performs a list of calls, as the C interface tells it.
pub trait Planner {
    /// The number of calls, or a negative number where none was performed.
    fn perform(&self, filling: &Filling, calls: &[u8], answers: &mut [u8], buffer: &mut [u8]) -> i64;
}

pub const FILLING_REFUSED: i64 = -1;
pub const NO_LIST: i64 = -2;
pub const ANSWERS_TOO_SHORT: i64 = -3;

pub struct Model;

impl Planner for Model {
    fn perform(&self, filling: &Filling, calls: &[u8], answers: &mut [u8], buffer: &mut [u8]) -> i64 {
        match observe(filling, calls, answers, buffer, |_, _, _| ()) {
            Ok(performed) => performed.calls,
            Err(number) => number,
        }
    }
}

/// What a performed list leaves.
pub struct Performed {
    pub plan: Plan,
    pub calls: i64,
}

/// Performs the calls and shows each to `see`: the plan before it, the call and its answer.
pub fn observe(
    filling: &Filling,
    calls: &[u8],
    answers: &mut [u8],
    buffer: &mut [u8],
    mut see: impl FnMut(&Plan, &Call, &Answer),
) -> Result<Performed, i64> {
    let line = Line::new(filling).ok_or(FILLING_REFUSED)?;
    let calls = decode(calls).ok_or(NO_LIST)?;
    if answers.len() < calls.len() * ANSWER_SIZE {
        return Err(ANSWERS_TOO_SHORT);
    }
    let mut plan = Plan::new(line);
    for (call, octets) in calls.iter().zip(answers.chunks_mut(ANSWER_SIZE)) {
        let mut after = plan.clone();
        let answer = after.perform(call, buffer);
        see(&plan, call, &answer);
        octets.copy_from_slice(&answer.encode());
        plan = after;
    }
    Ok(Performed { plan, calls: calls.len() as i64 })
}
