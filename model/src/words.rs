//! Cases and answers in words, for a person who looks for the fault.

use crate::calls::{decode, Call, ANSWER_SIZE};
use crate::generate::Case;
use crate::line::Filling;
use crate::records::{read_flow, read_port, FLOW_SIZE, PORT_SIZE};

pub fn of_case(case: &Case) -> String {
    let mut text = format!("line: {}\n", of_filling(&case.filling));
    match decode(&case.list) {
        Some(calls) => calls.iter().enumerate().for_each(|(k, call)| text += &format!("call {k}: {}\n", of_call(call))),
        None => text += "calls: no list of calls\n",
    }
    text += &format!("list of calls in octets: {}\n", hex(&case.list));
    text + &format!("answers of {} octets, buffer of {} octets\n", case.answers.len(), case.buffer.len())
}

fn of_filling(filling: &Filling) -> String {
    match filling {
        Filling::Ethernet(codes) => format!("Ethernet, codes {codes:?}"),
        Filling::Cells { ports, size, time } => format!("cells, {ports} ports, {size} octets, {time} ns"),
    }
}

fn of_call(call: &Call) -> String {
    match call {
        Call::SetUp { cycle, sheet } => format!("set-up with cycle {cycle}{}", of_ports(sheet)),
        Call::Offer { index, sheet } => format!("offer of record {index}{}", of_flows(sheet)),
        Call::Withdraw(number) => format!("withdrawal of {number}"),
        Call::StartOf(number) => format!("start of {number}"),
        Call::Flowspan => "flowspan".to_string(),
        Call::GateList(port) => format!("gate list of {port}"),
    }
}

fn of_ports(sheet: &[u8]) -> String {
    of_records(sheet, PORT_SIZE, |octets, index| format!("{:?}", read_port(octets, index)))
}

fn of_flows(sheet: &[u8]) -> String {
    of_records(sheet, FLOW_SIZE, |octets, index| format!("{:?}", read_flow(octets, index)))
}

fn of_records(sheet: &[u8], size: usize, read: impl Fn(&[u8], u64) -> String) -> String {
    let mut text = format!(", sheet of {} octets", sheet.len());
    for (index, octets) in sheet.chunks(size).enumerate() {
        let words = if octets.len() == size { read(octets, index as u64) } else { "not whole".to_string() };
        text += &format!("\n    record {index}: {} = {words}", hex(octets));
    }
    text
}

/// The answers that were returned, one a line.
pub fn of_answers(returned: i64, answers: &[u8]) -> String {
    let mut text = format!("returned {returned}\n");
    for (k, octets) in answers.chunks(ANSWER_SIZE).enumerate().take(returned.max(0) as usize) {
        text += &format!("answer {k}: {} = {}\n", hex(octets), of_answer(octets));
    }
    text
}

fn of_answer(octets: &[u8]) -> String {
    let value = octets[8..].iter().fold(0, |number: u64, &octet| number << 8 | u64::from(octet));
    match octets[0] {
        0 => "done".to_string(),
        1 => format!("start {value}"),
        2 => format!("flowspan {value}"),
        3 => format!("{value} records"),
        0xff => {
            let bit = u16::from_be_bytes([octets[4], octets[5]]);
            format!("refused {}, layer {}, record {value}, bit {bit}, hop {}", octets[1], octets[2], octets[3])
        }
        _ => "no answer".to_string(),
    }
}

/// The places at which two buffers differ, the first few of them.
pub fn of_differences(model: &[u8], library: &[u8]) -> String {
    let differing = (0..model.len()).filter(|&k| model[k] != library[k]);
    let places: Vec<String> =
        differing.take(8).map(|k| format!("octet {k}: {:02x} and {:02x}", model[k], library[k])).collect();
    if places.is_empty() {
        "equal".to_string()
    } else {
        places.join(", ")
    }
}

fn hex(octets: &[u8]) -> String {
    octets.iter().map(|octet| format!("{octet:02x}")).collect::<Vec<_>>().join(" ")
}
