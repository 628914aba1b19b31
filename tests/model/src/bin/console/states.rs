//! Saved states with each octet altered, states of other lengths, and states of random numbers.

use crate::compare::{Bench, Difference};
use refbridge_model::model::console::{frame, Stream, HEADER, MARK, STATE};
use refbridge_model::model::message::LONGEST;

/// Octets that lead a fresh stream to a state of each kind.
fn ways() -> Vec<Vec<u8>> {
    let whole = frame(&[0x5A; LONGEST]);
    let short = frame(&[7, 8, 9]);
    let mut ways: Vec<Vec<u8>> = (0..=HEADER).map(|count| whole[..count].to_vec()).collect();
    ways.extend(
        [&whole[..HEADER + 1], &whole[..HEADER + 700], &whole[..whole.len() - 1], &short[..6], &short[..7]]
            .map(<[u8]>::to_vec),
    );
    ways.push(vec![0]);
    ways.push([&MARK[..], &[0xFF, 0xFF]].concat());
    ways.push([&MARK[..], &[0xFF]].concat());
    ways
}

/// Each octet of each state becomes other octets: one bit over, one more, and, where the numbers stand, every octet.
pub fn every_octet(bench: &mut Bench) -> Result<(), Difference> {
    for way in ways() {
        let mut state = vec![0; STATE];
        bench.take(&mut state, &way, LONGEST)?;
        for at in 0..STATE {
            let old = state[at];
            let others: Vec<u8> = if at < HEADER {
                (0..=255).filter(|octet| *octet != old).collect()
            } else {
                vec![old ^ 1 << bench.random.below(8), old.wrapping_add(1)]
            };
            for octet in others {
                let mut altered = state.clone();
                altered[at] = octet;
                offered(bench, altered)?;
            }
        }
    }
    Ok(())
}

/// States that say that a frame is complete, and random numbers with contents that fit them or not.
pub fn numbers(bench: &mut Bench) -> Result<(), Difference> {
    for _ in 0..4000 {
        let random = &mut bench.random;
        let any = random.within(0, 1500) as u16;
        let size = random.pick(&[0, 1, 3, 255, 256, 1471, 1472, 1473, 0xFF00, any]);
        let count = random.pick(&[0, 1, 3, 4, 5, size, size.saturating_sub(1), size.saturating_add(1)]);
        let phase = random.pick(&[0, 0, 1, 1, 1, 2, 20, 21, 22, 23]);
        let held = usize::from(random.pick(&[0, count, count.saturating_add(1)])).min(LONGEST);
        let mut state = vec![phase];
        state.extend(count.to_be_bytes());
        state.extend(size.to_be_bytes());
        state.extend(random.octets(held));
        state.resize(STATE, 0);
        offered(bench, state)?;
    }
    Ok(())
}

/// States of every length around the right one, and some others; reset too.
pub fn lengths(bench: &mut Bench) -> Result<(), Difference> {
    for length in (0..8).chain(STATE - 8..STATE + 8).chain([LONGEST, 2 * STATE, 8192]) {
        for fill in [0, 1, 0xFF] {
            offered(bench, vec![fill; length])?;
            bench.take(&mut vec![fill; length], &MARK, LONGEST - 1)?;
            bench.reset(&mut vec![fill; length])?;
        }
    }
    Ok(())
}

/// A state that may be altered, a chunk, and a reset at times.
fn offered(bench: &mut Bench, mut state: Vec<u8>) -> Result<(), Difference> {
    if Stream::from_state(&state).is_some() {
        bench.note("altered state accepted");
    }
    let length = bench.random.pick(&[0, 1, 5, 2000]);
    let chunk = bench.random.octets(length);
    bench.take(&mut state, &chunk, LONGEST)?;
    if bench.random.chance(2) {
        bench.reset(&mut state)?;
    }
    Ok(())
}
