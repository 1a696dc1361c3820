//! The planner behind its C functions: calls as an enum, answers as values.
use std::fmt;

extern "C" {
    fn givrethans_perform_ethernet(
        codes: *const u8,
        codes_len: usize,
        calls: *const u8,
        calls_len: usize,
        answers: *mut u8,
        answers_len: usize,
        buffer: *mut u8,
        buffer_len: usize,
    ) -> i64;

    fn givrethans_perform_cells(
        ports: u8,
        cell_size: u16,
        cell_time: u32,
        calls: *const u8,
        calls_len: usize,
        answers: *mut u8,
        answers_len: usize,
        buffer: *mut u8,
        buffer_len: usize,
    ) -> i64;
}

/// The octets of an answer.
pub const ANSWER: usize = 16;

/// The octets that are enough for every gate list.
pub const LONGEST_GATE_LIST: usize = 15_365;

/// The line that a plan is made on.
pub enum Line<'a> {
    Ethernet { codes: &'a [u8] },
    Cells { ports: u8, size: u16, time: u32 },
}

/// One call of a plan.
#[derive(Clone, Copy)]
pub enum Call<'a> {
    SetUp { cycle: u32, ports: &'a [u8] },
    Offer { index: u64, flows: &'a [u8] },
    Withdrawal { number: u16 },
    Start { number: u16 },
    Flowspan,
    GateList { port: u8 },
}

impl Call<'_> {
    /// Puts the octets of the call behind `octets`. A sheet has at most 65,535 octets.
    fn put(&self, octets: &mut Vec<u8>) {
        match self {
            Call::SetUp { cycle, ports } => {
                octets.push(1);
                octets.extend(cycle.to_be_bytes());
                put_sheet(ports, octets);
            }
            Call::Offer { index, flows } => {
                octets.push(2);
                octets.extend(index.to_be_bytes());
                put_sheet(flows, octets);
            }
            Call::Withdrawal { number } => {
                octets.push(3);
                octets.extend(number.to_be_bytes());
            }
            Call::Start { number } => {
                octets.push(4);
                octets.extend(number.to_be_bytes());
            }
            Call::Flowspan => octets.push(5),
            Call::GateList { port } => octets.extend([6, *port]),
        }
    }
}

fn put_sheet(sheet: &[u8], octets: &mut Vec<u8>) {
    let len = u16::try_from(sheet.len()).expect("a sheet of at most 65,535 octets");
    octets.extend(len.to_be_bytes());
    octets.extend(sheet);
}

/// The octets of calls, back to back.
pub fn octets(calls: &[Call]) -> Vec<u8> {
    let mut octets = Vec::new();
    for call in calls {
        call.put(&mut octets);
    }
    octets
}

/// The 16 octets of an answer.
pub struct Answer<'a>(pub &'a [u8; ANSWER]);

impl Answer<'_> {
    fn value(&self) -> u64 {
        let [.., a, b, c, d, e, f, g, h] = *self.0;
        u64::from_be_bytes([a, b, c, d, e, f, g, h])
    }

    /// The number of gate records, if the answer is one.
    pub fn gate_records(&self) -> Option<usize> {
        (self.0[0] == 3).then(|| self.value() as usize)
    }
}

impl fmt::Display for Answer<'_> {
    fn fmt(&self, f: &mut fmt::Formatter) -> fmt::Result {
        let [kind, number, layer, hop, x, y, ..] = *self.0;
        let value = self.value();
        match kind {
            0 => write!(f, "done"),
            1 => write!(f, "start {value}"),
            2 => write!(f, "flowspan {value} ns"),
            3 => write!(f, "{value} gate records"),
            _ => {
                let bit = u16::from_be_bytes([x, y]);
                write!(
                    f,
                    "refused {number}, layer {layer}, record {value}, bit {bit}, hop {hop}"
                )
            }
        }
    }
}

/// Performs calls in octets on a new plan: the number of answers, or the negative number returned.
pub fn perform(
    line: &Line,
    calls: &[u8],
    answers: &mut [u8],
    buffer: &mut [u8],
) -> Result<usize, i64> {
    // SAFETY: each pointer and length is that of a slice, and the two mutable ones overlap nothing.
    let returned = unsafe {
        match line {
            Line::Ethernet { codes } => givrethans_perform_ethernet(
                codes.as_ptr(),
                codes.len(),
                calls.as_ptr(),
                calls.len(),
                answers.as_mut_ptr(),
                answers.len(),
                buffer.as_mut_ptr(),
                buffer.len(),
            ),
            Line::Cells { ports, size, time } => givrethans_perform_cells(
                *ports,
                *size,
                *time,
                calls.as_ptr(),
                calls.len(),
                answers.as_mut_ptr(),
                answers.len(),
                buffer.as_mut_ptr(),
                buffer.len(),
            ),
        }
    };
    usize::try_from(returned).map_err(|_| returned)
}
