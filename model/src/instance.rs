//! Inputs of the listing program: a network and flow records in one file.

use crate::bits::field;
use crate::calls::Call;
use crate::line::Filling;
use crate::records::{FLOW_SIZE, PORT_SIZE};

/// The octets: cycle (4), number of ports (1), rate codes, port records, flow records.
pub struct Instance {
    octets: Vec<u8>,
}

impl Instance {
    /// The instance of a file, or nothing where its ports do not lie whole in it.
    pub fn new(octets: Vec<u8>) -> Option<Instance> {
        let ports = usize::from(*octets.get(4)?);
        (octets.len() >= 5 + ports * (1 + PORT_SIZE)).then_some(Instance { octets })
    }

    pub fn octets(&self) -> &[u8] {
        &self.octets
    }

    pub fn filling(&self) -> Filling {
        Filling::Ethernet(self.octets[5..5 + self.ports()].to_vec())
    }

    pub fn ports(&self) -> usize {
        usize::from(self.octets[4])
    }

    /// The flow records; the last may be cut short.
    pub fn flows(&self) -> Vec<&[u8]> {
        self.octets[self.first_flow()..].chunks(FLOW_SIZE).collect()
    }

    fn first_flow(&self) -> usize {
        5 + self.ports() * (1 + PORT_SIZE)
    }

    /// The same network with the first flows only.
    pub fn with_flows(&self, count: usize) -> Instance {
        let end = self.octets.len().min(self.first_flow() + count * FLOW_SIZE);
        Instance { octets: self.octets[..end].to_vec() }
    }

    /// A set-up, an offer of every flow record, and the flowspan.
    pub fn calls(&self) -> Vec<Call> {
        let cycle = field(&self.octets, 0, 32) as u32;
        let sheet = self.octets[5 + self.ports()..self.first_flow()].to_vec();
        let mut calls = vec![Call::SetUp { cycle, sheet }];
        calls.extend(self.flows().iter().map(|flow| Call::Offer { index: 0, sheet: flow.to_vec() }));
        calls.push(Call::Flowspan);
        calls
    }

    /// The same, and then the gate list of every port.
    pub fn calls_with_gate_lists(&self) -> Vec<Call> {
        let mut calls = self.calls();
        calls.extend((0..self.ports()).map(|port| Call::GateList(port as u8)));
        calls
    }

    /// The lines of the listing program for the answers to `calls`.
    pub fn listing(&self, answers: &[[u8; 16]]) -> String {
        let mut text = String::new();
        for (flow, answer) in self.flows().iter().zip(&answers[1..]) {
            let number = if answer[0] == 0xff && answer[1] <= 3 { 0 } else { field(flow, 0, 16) };
            text += &match answer[0] {
                0xff => format!("R {number} {}\n", answer[1]),
                _ => format!("F {number} {}\n", field(answer, 64, 64)),
            };
        }
        text + &format!("S {}\n", field(&answers[answers.len() - 1], 64, 64))
    }
}
