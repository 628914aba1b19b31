//! Plays steps on the library and on the model, and compares everything that a call may and may not change.

use crate::generate::scripts;
use crate::library::{Library, Returned};
use crate::model::answer::refuse_sizes;
use crate::model::bridge::Bridge;
use crate::model::calls::BLOCK_NOT_LEGAL;
use crate::model::image::BLOCK;
use crate::model::message::Refusal;
use crate::random::Random;
use crate::step::{History, Step};
use crate::tally::Tally;

/// What the library did otherwise than the model, in words.
pub type Difference = String;

/// One block as the library has it, and as the model has it.
#[derive(Clone)]
pub struct Twin {
    pub block: Box<[u8]>,
    pub expected: Vec<u8>,
    /// None while the block is not legal.
    pub bridge: Option<Bridge>,
}

/// The library under test, and octets that fill its rooms.
struct Bench<'a> {
    library: Library,
    poison: Random,
    tally: &'a mut Tally,
}

pub struct Player<'a> {
    bench: Bench<'a>,
    pub twin: Twin,
}

/// A difference, the number of the step that showed it, and the library's block afterwards.
pub struct Failure {
    pub difference: Difference,
    pub step: usize,
    pub block: Box<[u8]>,
}

/// Plays a whole history.
pub fn play(library: Library, history: &History) -> Result<(), Failure> {
    let mut tally = Tally::default();
    let started = Player::start(library, &history.start, &mut tally);
    let mut player = started.map_err(|difference| Failure { difference, step: 0, block: Box::default() })?;
    for (at, step) in history.steps.iter().enumerate() {
        let played = player.play(step);
        played.map_err(|difference| Failure { difference, step: at + 1, block: player.twin.block.clone() })?;
    }
    Ok(())
}

impl<'a> Player<'a> {
    /// Sets up a block by the library, compares it, and puts in what the history starts from.
    pub fn start(library: Library, start: &Bridge, tally: &'a mut Tally) -> Result<Player<'a>, Difference> {
        let mut poison = Random::new(u64::from(start.ports));
        let mut block = poison.poison(BLOCK).into_boxed_slice();
        let returned = (library.set_up)(&mut block, start.ports, start.edition, start.device, &start.address);
        let fresh = start.made_fresh();
        same_return("set-up", returned, (0, 0, 0))?;
        same_octets("block after set-up", &block, &fresh.image())?;
        let expected = start.image();
        let twin = Twin { block: expected.clone().into_boxed_slice(), expected, bridge: Some(start.clone()) };
        Ok(Player { bench: Bench { library, poison, tally }, twin })
    }

    /// Steps for the bridge as it is now.
    pub fn next_steps(&mut self, random: &mut Random) -> Vec<Step> {
        let bridge = self.twin.bridge.as_ref().expect("scripts leave a legal block");
        let (script, steps) = scripts::script(random, bridge);
        self.bench.tally.note("script", script as u32);
        steps
    }

    pub fn play(&mut self, step: &Step) -> Result<(), Difference> {
        match step {
            Step::Poke { offset, octets } => self.poke(*offset, octets),
            Step::Call { request, block_len, room_len } => {
                self.bench.call(&mut self.twin, request, *block_len, *room_len)?;
            }
            Step::Reset { block_len } => self.bench.reset(&mut self.twin, *block_len)?,
            Step::Pair { first, second, room_lens } => self.pair(first, second, room_lens)?,
        }
        Ok(())
    }

    fn poke(&mut self, offset: usize, octets: &[u8]) {
        let twin = &mut self.twin;
        twin.block[offset..offset + octets.len()].copy_from_slice(octets);
        twin.expected[offset..offset + octets.len()].copy_from_slice(octets);
        twin.bridge = Bridge::from_block(&twin.expected);
        self.bench.tally.note("changed block, not legal or legal", u32::from(twin.bridge.is_some()));
    }

    /// Demand 3: two messages in both orders on two equal copies.
    fn pair(&mut self, first: &[u8], second: &[u8], room_lens: &[usize; 4]) -> Result<(), Difference> {
        let (bench, mut other) = (&mut self.bench, self.twin.clone());
        let first_before = bench.call(&mut self.twin, first, BLOCK, room_lens[0])?;
        let second_after = bench.call(&mut self.twin, second, BLOCK, room_lens[1])?;
        let second_before = bench.call(&mut other, second, BLOCK, room_lens[2])?;
        let first_after = bench.call(&mut other, first, BLOCK, room_lens[3])?;
        same_octets("answer to the first message in both orders", &first_before, &first_after)?;
        same_octets("answer to the second message in both orders", &second_before, &second_after)?;
        same_octets("block after both orders", &self.twin.block, &other.block)?;
        // A history that is being made shorter may hold a pair that is refused, which has no octets.
        let accepted = [&first_before, &second_before].iter().filter(|answer| answer.get(14) == Some(&0)).count();
        bench.tally.note("pair, by accepted messages", accepted as u32);
        if let Some(bridge) = &other.bridge {
            bench.tally.note("pair, by device", bridge.device);
        }
        Ok(())
    }
}

impl Bench<'_> {
    /// One answer call, compared with the model; gives the answer's octets.
    fn call(
        &mut self,
        twin: &mut Twin,
        request: &[u8],
        block_len: usize,
        room_len: usize,
    ) -> Result<Vec<u8>, Difference> {
        let before = twin.bridge.clone().filter(|_| is_set(request));
        let said = twin.say(request, block_len, room_len);
        self.tally.note_call(request, before.as_ref().or(twin.bridge.as_ref()), twin.bridge.as_ref(), &said);
        let poison = self.poison.poison(room_len);
        let mut room = poison.clone().into_boxed_slice();
        let given = request.to_vec().into_boxed_slice();
        let returned = if block_len == BLOCK {
            (self.library.answer)(&mut twin.block, &given, &mut room)
        } else {
            call_of_other_length(twin, block_len, |block| (self.library.answer)(block, &given, &mut room))?
        };
        let answer = said.as_deref().unwrap_or_default();
        let expected = match &said {
            Ok(answer) => (0, answer.len() as u32, 0),
            Err(Refusal { number, offset }) => (*number, 0, *offset),
        };
        same_return("answer", returned, expected)?;
        same_octets("answer", &room[..answer.len()], answer)?;
        same_octets("room after the answer", &room[answer.len()..], &poison[answer.len()..])?;
        same_octets("block", &twin.block, &twin.expected)?;
        same_octets("request", &given, request)?;
        Ok(answer.to_vec())
    }

    /// One reset, compared with the model.
    fn reset(&mut self, twin: &mut Twin, block_len: usize) -> Result<(), Difference> {
        self.tally.note_reset(twin.bridge.as_ref(), block_len);
        let expected = twin.reset(block_len);
        let returned = if block_len == BLOCK {
            (self.library.reset)(&mut twin.block)
        } else {
            call_of_other_length(twin, block_len, self.library.reset)?
        };
        same_return("reset", returned, expected)?;
        same_octets("block after a reset", &twin.block, &twin.expected)
    }
}

/// A call on the block's first octets, or on the block and more, in an allocation of that length.
fn call_of_other_length(
    twin: &Twin,
    block_len: usize,
    call: impl FnOnce(&mut [u8]) -> Returned,
) -> Result<Returned, Difference> {
    let mut before = twin.expected.clone();
    before.resize(block_len, 0);
    let mut block = before.clone().into_boxed_slice();
    let returned = call(&mut block);
    same_octets("block of another length", &block, &before)?;
    Ok(returned)
}

impl Twin {
    /// What the model says; the expected block becomes the one afterwards.
    fn say(&mut self, request: &[u8], block_len: usize, room_len: usize) -> Result<Vec<u8>, Refusal> {
        refuse_sizes(request.len(), room_len)?;
        let bridge = self.bridge.as_mut().filter(|_| block_len == BLOCK).ok_or(BLOCK_NOT_LEGAL)?;
        let answer = bridge.answer(request, room_len)?;
        // Only a set can change the block.
        if is_set(request) {
            self.expected = bridge.image();
        }
        Ok(answer)
    }

    /// What the model says of a reset; the expected block becomes the one afterwards.
    fn reset(&mut self, block_len: usize) -> Returned {
        let Some(bridge) = self.bridge.as_mut().filter(|_| block_len == BLOCK) else {
            return (BLOCK_NOT_LEGAL.number, 0, 0);
        };
        bridge.reset();
        self.expected = bridge.image();
        (0, 0, 0)
    }
}

fn is_set(request: &[u8]) -> bool {
    request.get(3) == Some(&3)
}

pub fn same_return(call: &str, returned: Returned, expected: Returned) -> Result<(), Difference> {
    if returned == expected {
        return Ok(());
    }
    Err(format!("{call}: number, count and offset are {returned:?} and not {expected:?}"))
}

pub fn same_octets(what: &str, octets: &[u8], expected: &[u8]) -> Result<(), Difference> {
    if octets == expected {
        return Ok(());
    }
    if octets.len() != expected.len() {
        return Err(format!("{what} has {} octets and not {}", octets.len(), expected.len()));
    }
    let at = (0..octets.len()).find(|at| octets[*at] != expected[*at]).unwrap_or(0);
    Err(format!("{what}: octet {at} is {:02X} and not {:02X}", octets[at], expected[at]))
}
