//! One check by the library and by the model, compared; what is accepted is played in several orders (E13).

use super::judge::{check, take_frame};
use super::met::Met;
use super::{generate, Answer, Batch, Calls};
use crate::model::message::LONGEST;
use crate::random::Random;

/// Batches that a bridge is given, before there is another bridge.
const BATCHES: usize = 6;
/// Orders in which an accepted batch is played.
const ORDERS: usize = 4;

/// Where library and model differ, or two orders.
pub type Difference = String;

/// The answer to each message, by its place in the batch, and the block at the end.
#[derive(PartialEq)]
struct Played {
    answers: Vec<Vec<u8>>,
    block: Vec<u8>,
}

pub struct Bench {
    calls: Calls,
    pub compared: u64,
    pub played: u64,
    pub met: Met,
}

impl Bench {
    pub fn new(calls: Calls) -> Bench {
        Bench { calls, compared: 0, played: 0, met: Met::default() }
    }

    /// Batches for one bridge, one of them on a block that is damaged.
    pub fn round(&mut self, random: &mut Random) -> Result<(), Difference> {
        let bridge = generate::bridge(random);
        let block = bridge.image();
        for _ in 0..BATCHES {
            let batch = generate::batch(random, &bridge);
            self.one(random, &block, &batch)?;
        }
        let (hurt, batch) = (generate::hurt(random, &bridge), generate::batch(random, &bridge));
        self.one(random, &hurt, &batch)
    }

    /// A short batch, cut at every octet and with every octet changed.
    pub fn sweep(&mut self, random: &mut Random) -> Result<(), Difference> {
        let bridge = generate::bridge(random);
        let (block, batch) = (bridge.image(), generate::short_batch(random, &bridge));
        for at in 0..batch.len() {
            self.one(random, &block, &batch[..at])?;
            for octet in [batch[at] ^ (1 << random.below(8)), batch[at].wrapping_add(1), random.octet()] {
                let mut changed = batch.clone();
                changed[at] = octet;
                self.one(random, &block, &changed)?;
            }
        }
        self.one(random, &block, &batch)
    }

    fn one(&mut self, random: &mut Random, block: &[u8], batch: &[u8]) -> Result<(), Difference> {
        let expected = check(block, batch);
        let (lent_block, lent_batch) = (block.to_vec().into_boxed_slice(), batch.to_vec().into_boxed_slice());
        let got = (self.calls.check)(&lent_block, &lent_batch);
        let what = format!("block of {} octets, batch of {}", block.len(), batch.len());
        if got != expected {
            return Err(format!("{what}: {got:?}, and the model {expected:?}"));
        }
        if *lent_block != *block || *lent_batch != *batch {
            return Err(format!("{what}: the check wrote"));
        }
        self.compared += 1;
        self.met.note(block, batch, &expected);
        if let (0, Some(answer)) = (expected.number, self.calls.answer) {
            self.play_orders(random, answer, (block, batch), &expected)?;
        }
        Ok(())
    }

    /// Plays the messages in several orders on equal copies of the block. Those of an accepted batch must be alike; of others it is noted.
    fn play_orders(
        &mut self,
        random: &mut Random,
        answer: Answer,
        (block, batch): (&[u8], &[u8]),
        expected: &Batch,
    ) -> Result<(), Difference> {
        let messages = messages_of(batch);
        let accepted = *expected == Batch::default();
        let mut order: Vec<usize> = (0..messages.len()).collect();
        let first = play(random, answer, block, &messages, &order)?;
        let mut alike = true;
        for turn in 1..ORDERS {
            if turn == 1 {
                order.reverse();
            } else {
                random.shuffle(&mut order);
            }
            let other = play(random, answer, block, &messages, &order)?;
            alike &= other == first;
            if accepted && !alike {
                return Err(format!("an accepted batch of {} messages: the order {order:?} differs", messages.len()));
            }
        }
        self.played += u64::from(accepted);
        let at_fault = first.answers.iter().any(|answer| answer[14] != 0);
        self.met.note_played(expected, alike, at_fault, first.block != block);
        Ok(())
    }
}

/// Plays the messages in an order on a copy of the block; each must be answered.
fn play(
    random: &mut Random,
    answer: Answer,
    block: &[u8],
    messages: &[Vec<u8>],
    order: &[usize],
) -> Result<Played, Difference> {
    let mut played = Played { answers: vec![Vec::new(); messages.len()], block: block.to_vec() };
    for at in order {
        let length = LONGEST + random.below(3) * random.below(100);
        let mut room = random.poison(length);
        let (number, count, _) = answer(&mut played.block, &messages[*at], &mut room);
        if number != 0 {
            return Err(format!("message {} of a batch that can be read is refused with {number}", at + 1));
        }
        room.truncate(count as usize);
        played.answers[*at] = room;
    }
    Ok(played)
}

/// The messages of a batch whose frames are right.
pub fn messages_of(batch: &[u8]) -> Vec<Vec<u8>> {
    let mut messages = Vec::new();
    let mut rest = batch;
    while let Ok((message, behind)) = take_frame(rest) {
        messages.push(message);
        rest = behind;
    }
    messages
}
