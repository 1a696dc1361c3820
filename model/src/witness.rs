//! The promise of a plan, looked at in simulated runs.

use crate::calls::{encode, Answer, Call, ANSWER_SIZE};
use crate::flow::Flow;
use crate::generate::Case;
use crate::line::Line;
use crate::plan::{gate_list_of, read_record, Plan, Setup};
use crate::planner::Planner;
use crate::random::Random;
use crate::records::{read_gate, GATE_SIZE};
use crate::run::{run, BestEffort, Network, Outcome};

/// A run is simulated only where it has at most so many instants, over all ports.
const MOST_INSTANTS: u64 = 150_000;

/// A gate list has at most 3,073 records.
const LONGEST_LIST: usize = 3_073 * GATE_SIZE;

/// A flow and flows held before it: with the flow added, some frame has to wait.
pub struct Trial {
    plan: Plan,
    flow: Flow,
    /// The start was chosen in the record, and the offer refused.
    pub chosen: bool,
}

/// What an answered offer says of a start at which a frame has to wait, if it says so of any.
pub fn trial(plan: &Plan, call: &Call, answer: &Answer, random: &mut Random) -> Option<Trial> {
    let Call::Offer { index, sheet } = call else {
        return None;
    };
    let record = read_record(*index, sheet).ok()?;
    let flow = plan.timed(&record).ok()?;
    let start = match (record.start, answer) {
        (Some(chosen), Answer::Refused(fault)) if fault.number == 15 => chosen,
        (None, Answer::Refused(fault)) if fault.number == 15 => random.below(flow.period),
        (None, Answer::Start(earliest)) if *earliest > 0 => random.below(*earliest),
        _ => return None,
    };
    Some(Trial { plan: plan.clone(), flow: flow.starting(start), chosen: record.start.is_some() })
}

/// Simulates the trial, if it is small: a frame has to wait.
pub fn try_out(trial: &Trial, random: &mut Random) -> Result<bool, String> {
    let Some(setup) = &trial.plan.setup else {
        return Ok(false);
    };
    let line = &trial.plan.line;
    let mut flows = trial.plan.flows.clone();
    flows.push(trial.flow.clone());
    let Some(end) = horizon(line, setup, &flows) else {
        return Ok(false);
    };
    let states: Vec<_> = (0..line.ports()).map(|port| places(&gate_list_of(line, setup, &flows, port))).collect();
    let network = Network { line, setup, flows: &flows, states: &states };
    match run(&network, some_best_effort(random), end, random) {
        Outcome::Waits(_) => Ok(true),
        other => Err(format!("no frame waits with flow {:?} added: {other:?}", trial.flow)),
    }
}

/// Simulates the flows that a list of calls leaves, under the gate lists of the planner: no frame waits.
pub fn keeps_its_promise(planner: &dyn Planner, case: &Case, plan: &Plan, random: &mut Random) -> Result<bool, String> {
    let Some(setup) = plan.setup.as_ref().filter(|_| !plan.flows.is_empty()) else {
        return Ok(false);
    };
    let Some(end) = horizon(&plan.line, setup, &plan.flows) else {
        return Ok(false);
    };
    let states =
        (0..plan.line.ports()).map(|port| answered_places(planner, case, port)).collect::<Result<Vec<_>, _>>()?;
    let network = Network { line: &plan.line, setup, flows: &plan.flows, states: &states };
    match run(&network, some_best_effort(random), end, random) {
        Outcome::OnTime { arrivals } if arrivals > 0 => Ok(true),
        other => Err(format!("a simulated run does not keep the promise: {other:?}")),
    }
}

/// Two cycles behind the first arrival of every flow, if that is not too long.
fn horizon(line: &Line, setup: &Setup, flows: &[Flow]) -> Option<u64> {
    let warm = flows.iter().map(|flow| flow.start + flow.total).max()?;
    let end = warm + 2 * setup.cycle;
    (end * line.ports() as u64 <= MOST_INSTANTS).then_some(end)
}

fn some_best_effort(random: &mut Random) -> BestEffort {
    random.pick(&[BestEffort::None, BestEffort::Largest, BestEffort::Some])
}

fn places(list: &[(u8, u64)]) -> Vec<u8> {
    list.iter().flat_map(|&(state, duration)| std::iter::repeat_n(state, duration as usize)).collect()
}

/// The states of a port by the gate list that the planner answers behind the calls of the case.
fn answered_places(planner: &dyn Planner, case: &Case, port: usize) -> Result<Vec<u8>, String> {
    let list = [case.list.clone(), encode(&[Call::GateList(port as u8)])].concat();
    let mut answers = vec![0; case.answers.len() + ANSWER_SIZE];
    let mut buffer = vec![0; LONGEST_LIST];
    let calls = planner.perform(&case.filling, &list, &mut answers, &mut buffer);
    let last = usize::try_from(calls - 1).map_err(|_| format!("gate list of {port}: no calls performed: {calls}"))?;
    let answer = &answers[last * ANSWER_SIZE..][..ANSWER_SIZE];
    if answer[0] != 3 {
        return Err(format!("gate list of {port}: refused: {answer:02x?}"));
    }
    let records = answer[8..].iter().fold(0, |number, &octet| number << 8 | usize::from(octet));
    let octets = buffer.get(..records * GATE_SIZE).ok_or(format!("gate list of {port}: {records} records"))?;
    Ok(places(&octets.chunks(GATE_SIZE).map(read_gate).collect::<Vec<_>>()))
}
