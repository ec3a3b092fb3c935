//! The topology (document 01: plan) and the refusals 1 to 5 and 19.

/// Most processes (boards) that a topology has.
pub const PROCESSES: usize = 16;
/// Most channels (wires) that a topology has.
pub const CHANNELS: usize = 64;

/// Document 01's plan: the number of processes (boards), and each channel's
/// (wire's) ends: sender, receiver. M-105: a map of late processes, bit p for
/// process p.
#[derive(Clone, Debug, PartialEq, Eq)]
pub struct Topology {
    pub processes: usize,
    pub channels: Vec<(usize, usize)>,
    pub late: u16,
}

impl Topology {
    /// With no late process.
    pub fn early(processes: usize, channels: Vec<(usize, usize)>) -> Topology {
        Topology { processes, channels, late: 0 }
    }

    /// Refusals 1 to 5, then 19. The first channel that offends decides, with 3
    /// before 4 before 5 on it.
    pub fn check(&self) -> Result<(), u8> {
        check_sizes(self.processes, self.channels.len())?;
        for (c, &(from, to)) in self.channels.iter().enumerate() {
            if from >= self.processes || to >= self.processes {
                return Err(3);
            }
            if from == to {
                return Err(4);
            }
            if self.channels[..c].contains(&(from, to)) {
                return Err(5);
            }
        }
        if u32::from(self.late) >> self.processes != 0 {
            return Err(19);
        }
        Ok(())
    }

    /// Whether a process is too busy to copy early (M-105).
    pub fn is_late(&self, process: usize) -> bool {
        process < PROCESSES && self.late >> process & 1 == 1
    }

    /// The topology at the start of a program's input, and the bytes after it.
    /// Under two bytes 7; 1; 2; channels or the map of late processes broken off
    /// 7; 3 to 5; 19.
    pub fn read(bytes: &[u8]) -> Result<(Topology, &[u8]), u8> {
        let [processes, channels, rest @ ..] = bytes else {
            return Err(7);
        };
        let (processes, count) = (*processes as usize, *channels as usize);
        check_sizes(processes, count)?;
        let (ends, rest) = rest.split_at_checked(2 * count).ok_or(7)?;
        let (late, rest) = rest.split_first_chunk().ok_or(7)?;
        let channels = ends.chunks(2).map(|end| (end[0] as usize, end[1] as usize)).collect();
        let topology = Topology { processes, channels, late: u16::from_le_bytes(*late) };
        topology.check()?;
        Ok((topology, rest))
    }

    /// The bytes that `read` takes; numbers over 255 lose their upper bits.
    pub fn write(&self) -> Vec<u8> {
        let mut bytes = vec![self.processes as u8, self.channels.len() as u8];
        for &(from, to) in &self.channels {
            bytes.extend([from as u8, to as u8]);
        }
        bytes.extend(self.late.to_le_bytes());
        bytes
    }
}

/// Refusals 1 and 2.
fn check_sizes(processes: usize, channels: usize) -> Result<(), u8> {
    if !(1..=PROCESSES).contains(&processes) {
        return Err(1);
    }
    if channels > CHANNELS {
        return Err(2);
    }
    Ok(())
}
