use super::element::Element;
use super::{MOST_RESULTS, PORTS};

/// How many messages a port holds.
pub const DEPTH: usize = 8;

#[derive(Clone, Copy, Debug)]
struct Message<E> {
    values: [E; MOST_RESULTS],
    count: usize,
}

/// The messages of one port, kept in a ring, and how many were dropped since the last receive.
#[derive(Clone, Debug)]
struct Queue<E> {
    ring: [Message<E>; DEPTH],
    first: usize,
    len: usize,
    missed: u8,
}

impl<E: Element> Queue<E> {
    const EMPTY: Self =
        Queue { ring: [Message { values: [E::NULL; MOST_RESULTS], count: 0 }; DEPTH], first: 0, len: 0, missed: 0 };

    fn send(&mut self, values: &[E]) {
        if self.len == DEPTH {
            self.first = (self.first + 1) % DEPTH;
            self.len -= 1;
            self.missed = self.missed.saturating_add(1);
        }
        let message = &mut self.ring[(self.first + self.len) % DEPTH];
        message.count = values.len();
        message.values[..values.len()].copy_from_slice(values);
        self.len += 1;
    }

    fn receive(&mut self, places: &mut [E]) -> (usize, u8) {
        let missed = std::mem::take(&mut self.missed);
        if self.len == 0 {
            return (0, missed);
        }
        let message = &self.ring[self.first];
        let count = message.count;
        places[..count].copy_from_slice(&message.values[..count]);
        self.first = (self.first + 1) % DEPTH;
        self.len -= 1;
        (count, missed)
    }
}

/// The queues of all ports. Callers check the port first.
#[derive(Clone, Debug)]
pub struct Queues<E> {
    ports: [Queue<E>; PORTS],
}

impl<E: Element> Queues<E> {
    pub fn new() -> Self {
        Queues { ports: [const { Queue::EMPTY }; PORTS] }
    }

    /// Appends at most four values as one message; a full port drops its oldest one.
    pub fn send(&mut self, port: u8, values: &[E]) {
        self.ports[usize::from(port)].send(values);
    }

    /// Takes the first message away. Gives how many values it had and how many messages were missed.
    pub fn receive(&mut self, port: u8, places: &mut [E]) -> (usize, u8) {
        self.ports[usize::from(port)].receive(places)
    }
}

impl<E: Element> Default for Queues<E> {
    fn default() -> Self {
        Self::new()
    }
}
