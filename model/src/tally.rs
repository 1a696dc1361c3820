//! Counts of a comparison.

use crate::calls::{Answer, Call};
use std::fmt;

#[derive(Default)]
pub struct Tally {
    pub lists: u64,
    pub calls: u64,
    /// Lists that returned -1, -2 and -3.
    pub not_performed: [u64; 3],
    pub accepted: u64,
    pub gate_lists: u64,
    pub gate_records: u64,
    pub longest_list: u64,
    /// Refusals by their number.
    pub refusals: [u64; 17],
    /// Refusals whose place is a hop above 0.
    pub later_hops: u64,
    /// Lists with a second look at buffers that just fit or just do not.
    pub edges: u64,
    /// Simulated runs in which no frame may wait.
    pub on_time: u64,
    /// Simulated runs in which some frame has to wait, at a chosen start that was refused.
    pub waiting_chosen: u64,
    /// Simulated runs in which some frame has to wait, at a start that a flow without one did not get.
    pub waiting_free: u64,
    pub most_flows: usize,
}

impl Tally {
    pub fn count(&mut self, call: &Call, answer: &Answer) {
        self.calls += 1;
        match (call, answer) {
            (_, Answer::Refused(fault)) => {
                self.refusals[usize::from(fault.number)] += 1;
                self.later_hops += u64::from(fault.hop > 0);
            }
            (Call::Offer { .. }, _) => self.accepted += 1,
            (_, Answer::Records(records)) => {
                self.gate_lists += 1;
                self.gate_records += records;
                self.longest_list = self.longest_list.max(*records);
            }
            _ => (),
        }
    }

    pub fn not_performed(&mut self, returned: i64) {
        self.not_performed[(-1 - returned) as usize] += 1;
    }
}

impl fmt::Display for Tally {
    fn fmt(&self, f: &mut fmt::Formatter) -> fmt::Result {
        writeln!(f, "lists of calls: {}", self.lists)?;
        for (k, count) in self.not_performed.iter().enumerate() {
            writeln!(f, "  returned -{}: {count}", k + 1)?;
        }
        writeln!(f, "calls: {}", self.calls)?;
        writeln!(f, "accepted offers: {}", self.accepted)?;
        writeln!(f, "most flows held: {}", self.most_flows)?;
        writeln!(
            f,
            "gate lists: {}, of {} records, the longest of {}",
            self.gate_lists, self.gate_records, self.longest_list
        )?;
        writeln!(f, "buffers at the edge: {}", self.edges)?;
        writeln!(f, "simulated runs without a wait: {}", self.on_time)?;
        writeln!(f, "simulated runs with a wait, at a refused start: {}", self.waiting_chosen)?;
        writeln!(f, "simulated runs with a wait, below an earliest start: {}", self.waiting_free)?;
        for (number, count) in self.refusals.iter().enumerate().skip(1) {
            writeln!(f, "  refused {number}: {count}")?;
        }
        writeln!(f, "  refused at a hop above 0: {}", self.later_hops)
    }
}
