//! One case on the model and on another planner, and all that has to agree.

use crate::calls::{Answer, Call};
use crate::generate::Case;
use crate::plan::Plan;
use crate::planner::{observe, Performed, Planner};
use crate::random::Random;
use crate::records::GATE_SIZE;
use crate::tally::Tally;
use crate::witness::{keeps_its_promise, trial, try_out, Trial};
use crate::words;

/// At most so many trials of one list are simulated.
const MOST_TRIALS: usize = 2;

/// Compares the case; a difference is told in words.
pub fn compare(other: &dyn Planner, case: &Case, random: &mut Random, tally: &mut Tally) -> Result<(), String> {
    let mut seen = Seen::default();
    let performed = same(other, case, |plan, call, answer| seen.see(plan, call, answer, random, tally))?;
    tally.lists += 1;
    let performed = match performed {
        Ok(performed) => performed,
        Err(returned) => {
            tally.not_performed(returned);
            return Ok(());
        }
    };
    tally.most_flows = tally.most_flows.max(performed.plan.flows.len());
    if let Some(records) = seen.records {
        edges(other, case, records as usize * GATE_SIZE, tally)?;
    }
    simulate(other, case, &performed, &seen.trials, random, tally).map_err(|text| text + "\n" + &words::of_case(case))
}

/// What the model's answers gave cause to look at.
#[derive(Default)]
struct Seen {
    trials: Vec<Trial>,
    /// The records of the first gate list that was answered.
    records: Option<u64>,
}

impl Seen {
    fn see(&mut self, plan: &Plan, call: &Call, answer: &Answer, random: &mut Random, tally: &mut Tally) {
        tally.count(call, answer);
        if self.trials.len() < MOST_TRIALS {
            self.trials.extend(trial(plan, call, answer, random));
        }
        if let (Answer::Records(records), None) = (answer, self.records) {
            self.records = Some(*records);
        }
    }
}

/// Performs the case on both; return value, answers and buffer have to be the same, to the last octet.
fn same(
    other: &dyn Planner,
    case: &Case,
    see: impl FnMut(&Plan, &Call, &Answer),
) -> Result<Result<Performed, i64>, String> {
    let (mut answers, mut buffer) = (case.answers.clone(), case.buffer.clone());
    let performed = observe(&case.filling, &case.list, &mut answers, &mut buffer, see);
    let returned = performed.as_ref().map_or_else(|number| *number, |performed| performed.calls);
    let (mut other_answers, mut other_buffer) = (case.answers.clone(), case.buffer.clone());
    let other_returned = other.perform(&case.filling, &case.list, &mut other_answers, &mut other_buffer);
    if returned == other_returned && answers == other_answers && buffer == other_buffer {
        return Ok(performed);
    }
    let mut text = words::of_case(case);
    text += &format!("--- model\n{}", words::of_answers(returned, &answers));
    text += &format!("--- library\n{}", words::of_answers(other_returned, &other_answers));
    text += &format!("--- answers, model and library: {}\n", words::of_differences(&answers, &other_answers));
    text += &format!("--- buffer, model and library: {}\n", words::of_differences(&buffer, &other_buffer));
    Err(text)
}

/// Compares again with a buffer that just holds a gate list, and one octet less.
fn edges(other: &dyn Planner, case: &Case, octets: usize, tally: &mut Tally) -> Result<(), String> {
    for length in [octets, octets - 1] {
        let buffer = case.buffer.iter().copied().chain(std::iter::repeat(0x55)).take(length).collect();
        let edge = Case { buffer, ..case.clone() };
        same(other, &edge, |_, _, _| ())?.map_err(|_| "the second look was not performed")?;
    }
    tally.edges += 1;
    Ok(())
}

fn simulate(
    other: &dyn Planner,
    case: &Case,
    performed: &Performed,
    trials: &[Trial],
    random: &mut Random,
    tally: &mut Tally,
) -> Result<(), String> {
    tally.on_time += u64::from(keeps_its_promise(other, case, &performed.plan, random)?);
    for trial in trials {
        let waited = u64::from(try_out(trial, random)?);
        if trial.chosen {
            tally.waiting_chosen += waited;
        } else {
            tally.waiting_free += waited;
        }
    }
    Ok(())
}

#[cfg(test)]
mod tests {
    use super::*;
    use crate::generate;
    use crate::line::Filling;
    use crate::planner::Model;

    fn compare_some(other: &dyn Planner, lists: u64) -> Result<Tally, String> {
        let mut tally = Tally::default();
        for list in 0..lists {
            let mut random = Random::of_list(1, list);
            let case = generate::case(&mut random);
            compare(other, &case, &mut random, &mut tally)?;
        }
        Ok(tally)
    }

    #[test]
    fn every_refusal_appears() {
        let tally = compare_some(&Model, 3_000).unwrap();
        for number in 1..=16 {
            assert!(tally.refusals[number] > 0, "{tally}");
        }
        assert!(tally.not_performed.iter().all(|&count| count > 0), "{tally}");
        assert!(tally.on_time > 0 && tally.waiting_chosen > 0 && tally.waiting_free > 0, "{tally}");
        assert_eq!(tally.most_flows, 64);
    }

    /// The model with one octet of what it answers turned.
    struct Turned(fn(i64, &mut [u8], &mut [u8]) -> i64);

    impl Planner for Turned {
        fn perform(&self, filling: &Filling, calls: &[u8], answers: &mut [u8], buffer: &mut [u8]) -> i64 {
            let returned = Model.perform(filling, calls, answers, buffer);
            self.0(returned, answers, buffer)
        }
    }

    fn turn_last(octets: &mut [u8]) {
        if let Some(last) = octets.last_mut() {
            *last ^= 1;
        }
    }

    #[test]
    fn a_turned_octet_is_seen() {
        let turned = [
            Turned(|returned, _, _| returned + 1),
            Turned(|returned, answers, _| {
                turn_last(answers);
                returned
            }),
            Turned(|returned, _, buffer| {
                turn_last(buffer);
                returned
            }),
        ];
        for planner in turned {
            assert!(compare_some(&planner, 5).is_err());
        }
    }
}
