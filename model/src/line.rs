//! Lines: how long a frame holds the wire of a port.

/// What is asked of a line: it may be outside the limits of its kind.
#[derive(Clone, Debug, PartialEq, Eq)]
pub enum Filling {
    Ethernet(Vec<u8>),
    Cells { ports: u8, size: u16, time: u32 },
}

/// A line that is filled within the limits of its kind.
#[derive(Clone, Debug, PartialEq, Eq)]
pub struct Line(Filling);

impl Line {
    /// The filled line, or nothing where the filling is refused.
    pub fn new(filling: &Filling) -> Option<Line> {
        let within = match filling {
            Filling::Ethernet(codes) => (1..=32).contains(&codes.len()) && codes.iter().all(|c| (1..=3).contains(c)),
            Filling::Cells { ports, size, time } => {
                (1..=32).contains(ports) && (64..=1_024).contains(size) && (1..=100_000).contains(time)
            }
        };
        within.then(|| Line(filling.clone()))
    }

    pub fn ports(&self) -> usize {
        match &self.0 {
            Filling::Ethernet(codes) => codes.len(),
            Filling::Cells { ports, .. } => usize::from(*ports),
        }
    }

    pub fn largest(&self) -> u64 {
        match self.0 {
            Filling::Ethernet(_) => 1_522,
            Filling::Cells { .. } => 4_000,
        }
    }

    /// The wire time, or 0 where the line does not carry that length on that port.
    pub fn wire_time(&self, port: usize, length: u64) -> u64 {
        if port >= self.ports() || length < 64 || length > self.largest() {
            return 0;
        }
        match &self.0 {
            Filling::Ethernet(codes) => (length + 8) * octet_time(codes[port]),
            Filling::Cells { size, time, .. } => length.div_ceil(u64::from(*size)) * u64::from(*time),
        }
    }
}

fn octet_time(code: u8) -> u64 {
    match code {
        1 => 800,
        2 => 80,
        _ => 8,
    }
}

#[cfg(test)]
mod tests {
    use super::*;

    #[test]
    fn the_figures_of_the_document() {
        let line = Line::new(&Filling::Ethernet(vec![1, 2, 3])).unwrap();
        assert_eq!(line.wire_time(1, 100), 8_640);
        assert_eq!(line.wire_time(2, 1_522), 12_240);
        assert_eq!(line.wire_time(0, 64), 57_600);
        assert_eq!(line.wire_time(0, 1_523), 0);
        let cells = Line::new(&Filling::Cells { ports: 1, size: 256, time: 2_500 }).unwrap();
        assert_eq!(cells.wire_time(0, 256), 2_500);
        assert_eq!(cells.wire_time(0, 257), 5_000);
    }

    #[test]
    fn fillings_outside_the_limits() {
        assert_eq!(Line::new(&Filling::Ethernet(vec![])), None);
        assert_eq!(Line::new(&Filling::Ethernet(vec![3; 33])), None);
        assert_eq!(Line::new(&Filling::Ethernet(vec![3, 4])), None);
        assert_eq!(Line::new(&Filling::Cells { ports: 1, size: 63, time: 1 }), None);
    }
}
