//! The plan: its calls, and their refusals in order.

use crate::calls::{Answer, Call};
use crate::fault::Fault;
use crate::flow::{spans_on, Flow};
use crate::gates;
use crate::instants;
use crate::line::Line;
use crate::pieces;
use crate::records::{read_flow, read_port, FlowRecord, Port, FLOW_SIZE, PORT_SIZE};

/// Up to this cycle the model goes from place to place too.
pub const SMALL: u64 = 12_000;

const MOST_FLOWS: usize = 64;
const MOST_PERIODS: u64 = 16;

#[derive(Clone, Debug)]
pub struct Setup {
    pub cycle: u64,
    pub ports: Vec<Port>,
}

#[derive(Clone, Debug)]
pub struct Plan {
    pub line: Line,
    pub setup: Option<Setup>,
    pub flows: Vec<Flow>,
}

impl Plan {
    pub fn new(line: Line) -> Plan {
        Plan { line, setup: None, flows: Vec::new() }
    }

    /// Performs one call; an answered gate list goes to the front of the buffer.
    pub fn perform(&mut self, call: &Call, buffer: &mut [u8]) -> Answer {
        let answer = match call {
            Call::SetUp { cycle, sheet } => self.set_up(u64::from(*cycle), sheet).map(|()| Answer::Done),
            Call::Offer { index, sheet } => self.offer(*index, sheet).map(Answer::Start),
            Call::Withdraw(number) => self.withdraw(*number).map(|()| Answer::Done),
            Call::StartOf(number) => self.start_of(*number).map(Answer::Start),
            Call::Flowspan => self.flowspan().map(Answer::Flowspan),
            Call::GateList(port) => self.gate_list(usize::from(*port), buffer).map(Answer::Records),
        };
        answer.unwrap_or_else(Answer::Refused)
    }

    fn set_up(&mut self, cycle: u64, sheet: &[u8]) -> Result<(), Fault> {
        let ports = read_ports(sheet)?;
        if self.setup.is_some() {
            return Err(Fault::plan(4));
        }
        let cycle_is_wrong = !(1_000..=1_000_000_000).contains(&cycle);
        let count_is_wrong = ports.len() != self.line.ports();
        let best_effort_is_wrong = ports.iter().any(|port| port.best_effort > self.line.largest());
        if cycle_is_wrong || count_is_wrong || best_effort_is_wrong {
            return Err(Fault::plan(5));
        }
        self.setup = Some(Setup { cycle, ports });
        Ok(())
    }

    fn offer(&mut self, index: u64, sheet: &[u8]) -> Result<u64, Fault> {
        let record = read_record(index, sheet)?;
        let flow = self.timed(&record)?;
        let start = self.place(&flow, record.start)?;
        self.flows.push(flow.starting(start));
        Ok(start)
    }

    /// The flow of a record that falls under no refusal before 14.
    pub fn timed(&self, record: &FlowRecord) -> Result<Flow, Fault> {
        let setup = self.known()?;
        if self.flows.iter().any(|flow| flow.number == record.number) {
            return Err(Fault::plan(6));
        }
        if self.flows.len() == MOST_FLOWS {
            return Err(Fault::plan(7));
        }
        if !setup.cycle.is_multiple_of(record.period) || setup.cycle / record.period > MOST_PERIODS {
            return Err(Fault::plan(9));
        }
        if let Some(hop) = wrong_hop(&record.route, self.line.ports()) {
            return Err(Fault::hop(10, hop));
        }
        if record.length > self.line.largest() {
            return Err(Fault::plan(11));
        }
        let flow = Flow::of(record, &self.line, &setup.ports);
        if let Some(hop) = flow.hops.iter().position(|hop| hop.wire > flow.period) {
            return Err(Fault::hop(12, hop));
        }
        if flow.total > flow.deadline {
            return Err(Fault::plan(13));
        }
        Ok(flow)
    }

    /// The start of an offered flow: the chosen one if it fits, or the earliest.
    fn place(&self, flow: &Flow, chosen: Option<u64>) -> Result<u64, Fault> {
        let cycle = self.known()?.cycle;
        let Some(start) = chosen else {
            return self.earliest(flow, cycle).ok_or(Fault::plan(15));
        };
        if start >= flow.period {
            return Err(Fault::plan(14));
        }
        if !self.fits(&flow.starting(start), cycle) {
            return Err(Fault::plan(15));
        }
        Ok(start)
    }

    fn fits(&self, flow: &Flow, cycle: u64) -> bool {
        let fits = pieces::fits(flow, &self.flows, cycle);
        if cycle <= SMALL {
            assert_eq!(fits, instants::fits(flow, &self.flows, cycle), "the model disagrees with itself: {flow:?}");
        }
        fits
    }

    fn earliest(&self, flow: &Flow, cycle: u64) -> Option<u64> {
        let earliest = pieces::earliest(flow, &self.flows, cycle);
        if cycle <= SMALL {
            let tried = instants::earliest(flow, &self.flows, cycle);
            assert_eq!(earliest, tried, "the model disagrees with itself: {flow:?}");
        } else if let Some(start) = earliest {
            let fits = |start| pieces::fits(&flow.starting(start), &self.flows, cycle);
            assert!(fits(start), "the model disagrees with itself: {flow:?}");
            assert!(start == 0 || !fits(start - 1), "the model disagrees with itself: {flow:?}");
        }
        earliest
    }

    fn withdraw(&mut self, number: u16) -> Result<(), Fault> {
        self.held(number)?;
        self.flows.retain(|flow| flow.number != number);
        Ok(())
    }

    fn start_of(&self, number: u16) -> Result<u64, Fault> {
        self.held(number).map(|flow| flow.start)
    }

    fn flowspan(&self) -> Result<u64, Fault> {
        self.known()?;
        Ok(self.flows.iter().map(|flow| flow.start + flow.total).max().unwrap_or(0))
    }

    fn gate_list(&self, port: usize, buffer: &mut [u8]) -> Result<u64, Fault> {
        let setup = self.known()?;
        if port >= self.line.ports() {
            return Err(Fault::plan(8));
        }
        let list = gate_list_of(&self.line, setup, &self.flows, port);
        let octets = gates::octets(&list);
        let front = buffer.get_mut(..octets.len()).ok_or(Fault::plan(16))?;
        front.copy_from_slice(&octets);
        Ok(list.len() as u64)
    }

    fn known(&self) -> Result<&Setup, Fault> {
        self.setup.as_ref().ok_or(Fault::plan(4))
    }

    fn held(&self, number: u16) -> Result<&Flow, Fault> {
        self.known()?;
        self.flows.iter().find(|flow| flow.number == number).ok_or(Fault::plan(8))
    }
}

/// The gate list of a port for these flows.
pub fn gate_list_of(line: &Line, setup: &Setup, flows: &[Flow], port: usize) -> Vec<gates::Stretch> {
    let spans = spans_on(flows, port, setup.cycle);
    let guard = line.wire_time(port, setup.ports[port].best_effort);
    let list = gates::list_by_pieces(&spans, guard, setup.cycle);
    if setup.cycle <= SMALL {
        let placed = gates::list_by_places(&spans, guard, setup.cycle);
        assert_eq!(list, placed, "the model disagrees with itself on port {port}");
    }
    list
}

fn read_ports(sheet: &[u8]) -> Result<Vec<Port>, Fault> {
    let count = (sheet.len() / PORT_SIZE) as u64;
    if !sheet.len().is_multiple_of(PORT_SIZE) {
        return Err(Fault::unfinished(count));
    }
    (0..count).zip(sheet.chunks(PORT_SIZE)).map(|(index, octets)| read_port(octets, index)).collect()
}

/// The flow record of an index, if it lies whole in its sheet.
pub fn read_record(index: u64, sheet: &[u8]) -> Result<FlowRecord, Fault> {
    let octets = usize::try_from(index)
        .ok()
        .and_then(|index| sheet.chunks_exact(FLOW_SIZE).nth(index))
        .ok_or(Fault::unfinished(index))?;
    read_flow(octets, index)
}

/// The first hop whose port is not there or stands earlier in the route.
fn wrong_hop(route: &[u8], ports: usize) -> Option<usize> {
    (0..route.len()).find(|&hop| usize::from(route[hop]) >= ports || route[..hop].contains(&route[hop]))
}
