//! The two calls under test: those of the linked library, or the model with a seeded fault.

use refbridge_model::archive;
use refbridge_model::model::calls::Returned;
use refbridge_model::model::console::{self, Taken, HEADER_WRONG, LENGTH_OVER, ROOM_SHORT};
use refbridge_model::model::message::LONGEST;

/// `rb_console_take`, and `rb_console_reset` with its number, count and offset.
#[derive(Clone, Copy)]
pub struct Calls {
    pub take: fn(&mut [u8], &[u8], &mut [u8]) -> Taken,
    pub reset: fn(&mut [u8]) -> Returned,
}

/// None where this program was built without the library.
pub fn linked() -> Option<Calls> {
    archive::linked(Calls { take: archive::console_take, reset: archive::console_reset })
}

fn reset(state: &mut [u8]) -> Returned {
    (console::reset(state), 0, 0)
}

/// The model's calls, each with one fault, and what the fault is: the comparison must find every one.
pub const FAULTS: &[(&str, Calls)] = &[
    ("22 at the fourth octet", Calls { take: length_judged_early, reset }),
    ("an empty message swallowed", Calls { take: empty_swallowed, reset }),
    ("a state with a complete frame accepted", Calls { take: complete_accepted, reset }),
    ("a repeat that takes octets", Calls { take: repeat_takes, reset }),
    ("refusal 1 takes", Calls { take: short_room_takes, reset }),
    ("a message of 1,472 octets refused", Calls { take: longest_refused, reset }),
    ("two messages in one call", Calls { take: goes_on, reset }),
    ("an octet behind the message written", Calls { take: writes_behind, reset }),
    ("the zeros of a state not looked at", Calls { take: zeros_passed, reset }),
    ("a bad state made fresh", Calls { take: bad_made_fresh, reset }),
    ("a reset keeps the contents", Calls { take: console::take, reset: reset_in_part }),
];

fn length_judged_early(state: &mut [u8], chunk: &[u8], room: &mut [u8]) -> Taken {
    let result = console::take(state, chunk, room);
    if result.number == 0 && state[..3] == [0, 0, 4] && state[3] > (LONGEST >> 8) as u8 {
        state.fill(0);
        state[0] = LENGTH_OVER as u8;
        return Taken { number: LENGTH_OVER, ..result };
    }
    result
}

fn empty_swallowed(state: &mut [u8], chunk: &[u8], room: &mut [u8]) -> Taken {
    let result = console::take(state, chunk, room);
    Taken { complete: u32::from(result.count > 0), ..result }
}

fn complete_accepted(state: &mut [u8], chunk: &[u8], room: &mut [u8]) -> Taken {
    let whole = state.len() == console::STATE && state[0] == 1 && state[1..3] == state[3..5];
    let result = console::take(state, chunk, room);
    if whole && result.number == HEADER_WRONG {
        return Taken { complete: 1, ..Taken::default() };
    }
    result
}

fn repeat_takes(state: &mut [u8], chunk: &[u8], room: &mut [u8]) -> Taken {
    let ended = state.first().is_some_and(|phase| *phase > 1);
    let result = console::take(state, chunk, room);
    if ended && result.number > ROOM_SHORT {
        return Taken { taken: chunk.len() as u32, ..result };
    }
    result
}

fn short_room_takes(state: &mut [u8], chunk: &[u8], room: &mut [u8]) -> Taken {
    let result = console::take(state, chunk, room);
    if result.number == ROOM_SHORT {
        return Taken { taken: chunk.len() as u32, ..result };
    }
    result
}

fn longest_refused(state: &mut [u8], chunk: &[u8], room: &mut [u8]) -> Taken {
    let result = console::take(state, chunk, room);
    if result.count == LONGEST as u32 {
        return Taken { number: LENGTH_OVER, taken: result.taken, ..Taken::default() };
    }
    result
}

fn goes_on(state: &mut [u8], chunk: &[u8], room: &mut [u8]) -> Taken {
    let first = console::take(state, chunk, room);
    let rest = &chunk[first.taken as usize..];
    if first.complete == 1 && !rest.is_empty() {
        let second = console::take(state, rest, room);
        return Taken { taken: first.taken + second.taken, ..second };
    }
    first
}

fn writes_behind(state: &mut [u8], chunk: &[u8], room: &mut [u8]) -> Taken {
    let result = console::take(state, chunk, room);
    if let (1, Some(octet)) = (result.complete, room.get_mut(result.count as usize)) {
        *octet = !*octet;
    }
    result
}

fn zeros_passed(state: &mut [u8], chunk: &[u8], room: &mut [u8]) -> Taken {
    if let Some(last) = state.last_mut() {
        *last = 0;
    }
    console::take(state, chunk, room)
}

fn bad_made_fresh(state: &mut [u8], chunk: &[u8], room: &mut [u8]) -> Taken {
    let result = console::take(state, chunk, room);
    if result.number == HEADER_WRONG && result.taken == 0 && state.first().is_some_and(|phase| *phase < 2) {
        state.fill(0);
    }
    result
}

fn reset_in_part(state: &mut [u8]) -> Returned {
    let result = reset(&mut state.to_vec());
    if result.0 == 0 {
        state[..console::HEADER].fill(0);
    }
    result
}
