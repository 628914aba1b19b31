//! Requests over the serial console (paper 02, E7): frames on a stream, taken in chunks, and the saved state of docs/LAYOUT.md.

use super::message::LONGEST;

pub const STATE: usize = 1477;
pub const ROOM_SHORT: u32 = 1;
pub const HEADER_WRONG: u32 = 21;
pub const LENGTH_OVER: u32 = 22;

/// How every frame begins: field 7F with a length of two octets, which are the message's length.
pub const MARK: [u8; 3] = [0x7F, 0, 2];
pub const HEADER: usize = 5;

/// All octets of an unfinished frame, those of its header too; or the number that ended the stream.
#[derive(Clone, Debug, PartialEq)]
pub enum Stream {
    Open(Vec<u8>),
    Ended(u32),
}

/// What one octet leads to.
pub enum Event {
    Nothing,
    Message(Vec<u8>),
    Refused(u32),
}

/// What a call returns, field by field as the header has it.
#[repr(C)]
#[derive(Clone, Copy, Debug, Default, PartialEq)]
pub struct Taken {
    pub number: u32,
    pub taken: u32,
    pub complete: u32,
    pub count: u32,
}

/// A message in its frame.
pub fn frame(message: &[u8]) -> Vec<u8> {
    let length = (message.len() as u16).to_be_bytes();
    [&MARK[..], &length, message].concat()
}

impl Stream {
    pub fn fresh() -> Stream {
        Stream::Open(Vec::new())
    }

    /// Takes one octet; a stream that has ended takes none.
    pub fn octet(&mut self, octet: u8) -> Event {
        let Stream::Open(frame) = self else { return Event::Nothing };
        frame.push(octet);
        let event = judge(frame);
        match &event {
            Event::Nothing => {}
            Event::Message(_) => frame.clear(),
            Event::Refused(number) => *self = Stream::Ended(*number),
        }
        event
    }

    /// Phase, count, message length and contents, with zeros for what is not used.
    pub fn image(&self) -> Vec<u8> {
        let (phase, count, high, low, contents) = match self {
            Stream::Open(frame) if frame.len() < HEADER => {
                (0, frame.len(), frame.get(3).copied().unwrap_or(0), 0, &frame[..0])
            }
            Stream::Open(frame) => (1, frame.len() - HEADER, frame[3], frame[4], &frame[HEADER..]),
            Stream::Ended(number) => (*number as u8, 0, 0, 0, &[][..]),
        };
        let [count_high, count_low] = (count as u16).to_be_bytes();
        let mut octets = vec![phase, count_high, count_low, high, low];
        octets.extend_from_slice(contents);
        octets.resize(STATE, 0);
        octets
    }

    /// The stream that leaves this state, if there is one: octets that could have come are played, and must leave it.
    pub fn from_state(state: &[u8]) -> Option<Stream> {
        if state.len() != STATE {
            return None;
        }
        let count = usize::from(u16::from_be_bytes([state[1], state[2]]));
        let header = [MARK[0], MARK[1], MARK[2], state[3], state[4]];
        let came = match u32::from(state[0]) {
            0 => header[..count.min(HEADER)].to_vec(),
            1 => [&header[..], &state[HEADER..][..count.min(LONGEST)]].concat(),
            HEADER_WRONG => vec![0],
            LENGTH_OVER => vec![MARK[0], MARK[1], MARK[2], 0xFF, 0xFF],
            _ => return None,
        };
        let mut stream = Stream::fresh();
        for octet in came {
            stream.octet(octet);
        }
        (stream.image() == state).then_some(stream)
    }
}

fn judge(frame: &[u8]) -> Event {
    let last = frame.len() - 1;
    if last < MARK.len() && frame[last] != MARK[last] {
        return Event::Refused(HEADER_WRONG);
    }
    if frame.len() < HEADER {
        return Event::Nothing;
    }
    let length = usize::from(u16::from_be_bytes([frame[3], frame[4]]));
    if length > LONGEST {
        return Event::Refused(LENGTH_OVER);
    }
    if frame.len() < HEADER + length {
        return Event::Nothing;
    }
    Event::Message(frame[HEADER..].to_vec())
}

/// `rb_console_take`.
pub fn take(state: &mut [u8], chunk: &[u8], room: &mut [u8]) -> Taken {
    let refused = |number| Taken { number, ..Taken::default() };
    if room.len() < LONGEST {
        return refused(ROOM_SHORT);
    }
    let Some(mut stream) = Stream::from_state(state) else { return refused(HEADER_WRONG) };
    if let Stream::Ended(number) = stream {
        return refused(number);
    }
    let mut result = Taken::default();
    for octet in chunk {
        result.taken += 1;
        match stream.octet(*octet) {
            Event::Nothing => continue,
            Event::Message(message) => {
                room[..message.len()].copy_from_slice(&message);
                result.complete = 1;
                result.count = message.len() as u32;
            }
            Event::Refused(number) => result.number = number,
        }
        break;
    }
    state.copy_from_slice(&stream.image());
    result
}

/// `rb_console_reset`: its number.
pub fn reset(state: &mut [u8]) -> u32 {
    if state.len() != STATE {
        return HEADER_WRONG;
    }
    state.fill(0);
    0
}
