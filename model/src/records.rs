//! Port, flow and gate records in octets, and what is wrong with a record.

use crate::bits::{field, put};
use crate::fault::Fault;

pub const PORT_SIZE: usize = 8;
pub const FLOW_SIZE: usize = 21;
pub const GATE_SIZE: usize = 5;

/// The figures of one port.
#[derive(Clone, Copy, Debug, PartialEq, Eq)]
pub struct Port {
    pub propagation: u64,
    pub processing: u64,
    pub best_effort: u64,
}

/// A flow as its record tells it; `start` is `None` where it is not chosen.
#[derive(Clone, Debug, PartialEq, Eq)]
pub struct FlowRecord {
    pub number: u16,
    pub length: u64,
    pub period: u64,
    pub deadline: u64,
    pub start: Option<u64>,
    pub route: Vec<u8>,
}

/// A field: its first bit and its number of bits.
type Field = (usize, usize);

/// A field with its smallest and its greatest value.
type Limit = (Field, u64, u64);

const PORT_ZEROS: [Field; 1] = [(51, 13)];
const PORT_LIMITS: [Limit; 3] = [((0, 17), 0, 100_000), ((17, 20), 0, 1_000_000), ((37, 14), 64, 9_600)];
const FLOW_LIMITS: [Limit; 6] = [
    ((0, 16), 1, 65_535),
    ((16, 14), 64, 9_600),
    ((30, 30), 1, 1_000_000_000),
    ((60, 30), 1, 1_000_000_000),
    ((91, 30), 0, 999_999_999),
    ((121, 4), 1, 8),
];

/// The port slot of a hop.
pub fn slot(hop: usize) -> Field {
    (125 + 5 * hop, 5)
}

pub fn read_port(octets: &[u8], index: u64) -> Result<Port, Fault> {
    judge(octets, index, &PORT_ZEROS, &PORT_LIMITS)?;
    Ok(Port {
        propagation: field(octets, 0, 17),
        processing: field(octets, 17, 20),
        best_effort: field(octets, 37, 14),
    })
}

pub fn read_flow(octets: &[u8], index: u64) -> Result<FlowRecord, Fault> {
    judge(octets, index, &flow_zeros(octets), &FLOW_LIMITS)?;
    let hops = field(octets, 121, 4) as usize;
    Ok(FlowRecord {
        number: field(octets, 0, 16) as u16,
        length: field(octets, 16, 14),
        period: field(octets, 30, 30),
        deadline: field(octets, 60, 30),
        start: (field(octets, 90, 1) == 1).then(|| field(octets, 91, 30)),
        route: (0..hops).map(|hop| port_of(octets, hop)).collect(),
    })
}

fn port_of(octets: &[u8], hop: usize) -> u8 {
    let (at, count) = slot(hop);
    field(octets, at, count) as u8
}

/// The fields of a flow record that have to be zero, by its other fields.
fn flow_zeros(octets: &[u8]) -> Vec<Field> {
    let mut zeros = Vec::new();
    if field(octets, 90, 1) == 0 {
        zeros.push((91, 30));
    }
    let hops = field(octets, 121, 4) as usize;
    zeros.extend((hops..8).map(slot));
    zeros.push((165, 3));
    zeros
}

fn judge(octets: &[u8], index: u64, zeros: &[Field], limits: &[Limit]) -> Result<(), Fault> {
    for &(at, count) in zeros {
        if field(octets, at, count) != 0 {
            return Err(Fault::field(2, index, at));
        }
    }
    for &((at, count), least, most) in limits {
        if !(least..=most).contains(&field(octets, at, count)) {
            return Err(Fault::field(3, index, at));
        }
    }
    Ok(())
}

pub fn write_port(port: &Port) -> [u8; PORT_SIZE] {
    let mut octets = [0; PORT_SIZE];
    put(&mut octets, 0, 17, port.propagation);
    put(&mut octets, 17, 20, port.processing);
    put(&mut octets, 37, 14, port.best_effort);
    octets
}

/// Writes the flow as it is told, also where it is outside its limits.
pub fn write_flow(flow: &FlowRecord) -> [u8; FLOW_SIZE] {
    let mut octets = [0; FLOW_SIZE];
    put(&mut octets, 0, 16, u64::from(flow.number));
    put(&mut octets, 16, 14, flow.length);
    put(&mut octets, 30, 30, flow.period);
    put(&mut octets, 60, 30, flow.deadline);
    put(&mut octets, 90, 1, u64::from(flow.start.is_some()));
    put(&mut octets, 91, 30, flow.start.unwrap_or(0));
    put(&mut octets, 121, 4, flow.route.len() as u64);
    for (hop, &port) in flow.route.iter().enumerate().take(8) {
        let (at, count) = slot(hop);
        put(&mut octets, at, count, u64::from(port));
    }
    octets
}

pub fn write_gate(state: u8, duration: u64) -> [u8; GATE_SIZE] {
    let mut octets = [0; GATE_SIZE];
    octets[0] = state;
    put(&mut octets, 10, 30, duration);
    octets
}

/// The state and the duration of a gate record.
pub fn read_gate(octets: &[u8]) -> (u8, u64) {
    (octets[0], field(octets, 10, 30))
}

#[cfg(test)]
mod tests {
    use super::*;

    const PORT: [u8; 8] = [0x00, 0x32, 0x00, 0x1f, 0x40, 0xbe, 0x40, 0x00];
    const FLOW: [u8; 21] = [
        0x00, 0x08, 0x17, 0xc8, 0x00, 0xf4, 0x24, 0x00, 0x00, 0x61, 0xa8, 0x20, 0x00, 0x03, 0xd6, 0x18, 0xbe, 0x50, 0,
        0, 0,
    ];

    #[test]
    fn the_port_record_of_the_formats() {
        let port = Port { propagation: 100, processing: 1_000, best_effort: 1_522 };
        assert_eq!(write_port(&port), PORT);
        assert_eq!(read_port(&PORT, 0), Ok(port));
    }

    #[test]
    fn the_flow_record_of_the_formats() {
        let flow = FlowRecord {
            number: 8,
            length: 1_522,
            period: 1_000_000,
            deadline: 100_000,
            start: Some(1_964),
            route: vec![2, 31, 5],
        };
        assert_eq!(write_flow(&flow), FLOW);
        assert_eq!(read_flow(&FLOW, 0), Ok(flow));
    }

    #[test]
    fn the_gate_records_of_the_formats() {
        assert_eq!(write_gate(0x00, 1_964), [0x00, 0x00, 0x00, 0x07, 0xac]);
        assert_eq!(write_gate(0x80, 8_928), [0x80, 0x00, 0x00, 0x22, 0xe0]);
        assert_eq!(read_gate(&[0x80, 0x00, 0x00, 0x22, 0xe0]), (0x80, 8_928));
    }

    #[test]
    fn every_zero_comes_before_any_limit() {
        let mut octets = FLOW;
        put(&mut octets, 0, 16, 0);
        assert_eq!(read_flow(&octets, 3), Err(Fault::field(3, 3, 0)));
        put(&mut octets, 167, 1, 1);
        assert_eq!(read_flow(&octets, 3), Err(Fault::field(2, 3, 165)));
    }

    #[test]
    fn slots_from_the_hop_count_on() {
        let mut octets = FLOW;
        put(&mut octets, 121, 4, 0);
        assert_eq!(read_flow(&octets, 0), Err(Fault::field(2, 0, 125)));
        put(&mut octets, 121, 4, 9);
        assert_eq!(read_flow(&octets, 0), Err(Fault::field(3, 0, 121)));
    }
}
