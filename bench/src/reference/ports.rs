use super::{Mask, PARTS, PORTS, single};

/// Who may send to each port and who may receive from it.
#[derive(Clone, Debug, Default)]
pub struct Ports {
    senders: [Mask; PORTS],
    receivers: [Mask; PORTS],
}

/// The port is over 15: refusal 11.
#[derive(Clone, Copy, Debug, PartialEq, Eq)]
pub struct NoSuchPort;

impl NoSuchPort {
    pub fn number(self) -> u32 {
        11
    }
}

impl Ports {
    pub fn set(&mut self, port: u8, senders: Mask, receivers: Mask) -> Result<(), NoSuchPort> {
        let port = usize::from(port);
        if port >= PORTS {
            return Err(NoSuchPort);
        }
        self.senders[port] = senders;
        self.receivers[port] = receivers;
        Ok(())
    }

    pub fn may_send(&self, port: u8, part: u8) -> bool {
        self.senders.get(usize::from(port)).is_some_and(|set| set & single(part) != 0)
    }

    pub fn may_receive(&self, port: u8, part: u8) -> bool {
        self.receivers.get(usize::from(port)).is_some_and(|set| set & single(part) != 0)
    }

    /// The smallest set that holds the part and, for each port that a member may receive from,
    /// all senders and receivers of that port; empty for a part over 7.
    pub fn upstream(&self, part: u8) -> Mask {
        if usize::from(part) >= PARTS {
            return 0;
        }
        let mut members = single(part);
        loop {
            let more = self.senders.iter().zip(&self.receivers).fold(members, |set, (senders, receivers)| {
                if receivers & set != 0 { set | senders | receivers } else { set }
            });
            if more == members {
                return members;
            }
            members = more;
        }
    }
}
