//! Makes one call on the library and on the model, and compares numbers, room and state, octet for octet.

use crate::calls::Calls;
use crate::guarded::Guarded;
use refbridge_model::model::console::{self, Stream, Taken, HEADER_WRONG, LENGTH_OVER, ROOM_SHORT};
use refbridge_model::model::message::LONGEST;
use refbridge_model::random::Random;
use std::collections::BTreeMap;

/// What must have been met at least once.
const REQUIRED: &[&str] = &[
    "no message yet",
    "no octets offered",
    "empty message",
    "message of 1472 octets",
    "another message",
    "octets left untaken",
    "number 1",
    "number 21 at octet 1",
    "number 21 at octet 2",
    "number 21 at octet 3",
    "number 22 at octet 5",
    "number 21 again",
    "number 22 again",
    "number 21 for a state",
    "altered state accepted",
    "reset",
    "reset refused",
];

/// Where library and model differ.
pub type Difference = String;

/// The calls under test, the buffers that they are lent, and what was met so far.
pub struct Bench {
    pub calls: Calls,
    pub compared: u64,
    pub met: BTreeMap<String, u64>,
    pub random: Random,
    buffers: [Guarded; 3],
}

impl Bench {
    pub fn new(calls: Calls, seed: u64) -> Bench {
        let buffers = [Guarded::new(), Guarded::new(), Guarded::new()];
        Bench { calls, compared: 0, met: BTreeMap::new(), random: Random::new(seed), buffers }
    }

    pub fn note(&mut self, what: &str) {
        *self.met.entry(what.to_string()).or_default() += 1;
    }

    /// What was never met.
    pub fn missing(&self) -> Vec<&'static str> {
        REQUIRED.iter().copied().filter(|what| !self.met.contains_key(*what)).collect()
    }

    /// One call with a room of so many octets. The state becomes the one that the call leaves; gives the result and the message.
    pub fn take(&mut self, state: &mut [u8], chunk: &[u8], room_len: usize) -> Result<(Taken, Vec<u8>), Difference> {
        let room = self.random.poison(room_len);
        let (mut expected_state, mut expected_room) = (state.to_vec(), room.clone());
        let expected = console::take(&mut expected_state, chunk, &mut expected_room);
        let back = self.random.chance(50);
        let [lent_state, lent_chunk, lent_room] = &mut self.buffers;
        let (lent_state, lent_room) = (lent_state.lend(state, back), lent_room.lend(&room, back));
        let lent_chunk = lent_chunk.lend(chunk, back);
        let got = (self.calls.take)(lent_state, lent_chunk, lent_room);
        let what = format!(
            "state {:02X?}.., chunk of {} octets, room of {room_len}",
            &state[..state.len().min(8)],
            chunk.len()
        );
        if got != expected {
            return Err(format!("{what}: {got:?}, and the model {expected:?}"));
        }
        for (part, octets, model) in [
            ("room", &*lent_room, &expected_room[..]),
            ("state", &*lent_state, &expected_state),
            ("chunk", &*lent_chunk, chunk),
        ] {
            if octets != model {
                return Err(format!("{what}: the {part} differs"));
            }
        }
        self.compared += 1;
        self.note_call(state, chunk, &got);
        state.copy_from_slice(&expected_state);
        Ok((got, expected_room[..got.count as usize].to_vec()))
    }

    fn note_call(&mut self, before: &[u8], chunk: &[u8], got: &Taken) {
        let what = match *got {
            Taken { number: ROOM_SHORT, .. } => "number 1".to_string(),
            Taken { number: number @ (HEADER_WRONG | LENGTH_OVER), taken: 0, .. } => match Stream::from_state(before) {
                Some(_) => format!("number {number} again"),
                None => format!("number {number} for a state"),
            },
            Taken { number: number @ 1.., .. } => {
                let earlier = u32::from(before[2]) * u32::from(before[0] == 0);
                format!("number {number} at octet {}", earlier + got.taken)
            }
            Taken { complete: 1, count: 0, .. } => "empty message".to_string(),
            Taken { complete: 1, count, .. } if count == LONGEST as u32 => "message of 1472 octets".to_string(),
            Taken { complete: 1, .. } => "another message".to_string(),
            _ if chunk.is_empty() => "no octets offered".to_string(),
            _ => "no message yet".to_string(),
        };
        self.note(&what);
        if got.complete == 1 && (got.taken as usize) < chunk.len() {
            self.note("octets left untaken");
        }
    }

    pub fn reset(&mut self, state: &mut [u8]) -> Result<(), Difference> {
        let mut expected = state.to_vec();
        let number = console::reset(&mut expected);
        let back = self.random.chance(50);
        let lent = self.buffers[0].lend(state, back);
        let got = (self.calls.reset)(lent);
        if got != (number, 0, 0) || *lent != expected[..] {
            return Err(format!("reset of {} octets: {got:?}, and the model {number}", state.len()));
        }
        self.compared += 1;
        self.note(if number == 0 { "reset" } else { "reset refused" });
        state.copy_from_slice(&expected);
        Ok(())
    }
}
