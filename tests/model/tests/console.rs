//! The model of the serial console: what E7 says of single octets, states and repeats.

use refbridge_model::model::console::{frame, reset, take, Stream, Taken, STATE};

const ROOM: usize = 1472;

/// Offers octets to a fresh state; gives the result, the message and the state.
fn offer(octets: &[u8]) -> (Taken, Vec<u8>, Vec<u8>) {
    let (mut state, mut room) = (vec![0; STATE], vec![0xEE; ROOM]);
    let result = take(&mut state, octets, &mut room);
    room.truncate(result.count as usize);
    (result, room, state)
}

fn refused(number: u32, taken: u32) -> Taken {
    Taken { number, taken, complete: 0, count: 0 }
}

#[test]
fn wrong_at_the_first_wrong_octet() {
    assert_eq!(offer(&[0x7E, 0, 2]).0, refused(21, 1));
    assert_eq!(offer(&[0x7F, 1, 2]).0, refused(21, 2));
    assert_eq!(offer(&[0x7F, 0, 3, 0, 0]).0, refused(21, 3));
}

#[test]
fn too_long_at_the_fifth_octet() {
    assert_eq!(offer(&[0x7F, 0, 2, 0xFF]).0, Taken { taken: 4, ..Taken::default() });
    assert_eq!(offer(&[0x7F, 0, 2, 0xFF, 0xFF, 9]).0, refused(22, 5));
    assert_eq!(offer(&[0x7F, 0, 2, 5, 0xC1]).0, refused(22, 5));
    assert_eq!(offer(&[0x7F, 0, 2, 5, 0xC0]).0, Taken { taken: 5, ..Taken::default() });
}

#[test]
fn one_message_a_call_and_an_empty_one_too() {
    let octets = [frame(&[]), frame(&[7, 8])].concat();
    let (result, message, state) = offer(&octets);
    assert_eq!((result, message), (Taken { number: 0, taken: 5, complete: 1, count: 0 }, vec![]));
    assert_eq!(state, vec![0; STATE]);
    let (result, message, _) = offer(&octets[5..]);
    assert_eq!((result, message), (Taken { number: 0, taken: 7, complete: 1, count: 2 }, vec![7, 8]));
}

#[test]
fn an_ended_stream_repeats_until_a_reset() {
    for (octets, number) in [(&[0][..], 21), (&[0x7F, 0, 2, 6, 0], 22)] {
        let (_, _, mut state) = offer(octets);
        assert_eq!(state[..5], [number as u8, 0, 0, 0, 0]);
        let before = state.clone();
        assert_eq!(take(&mut state, &frame(&[1]), &mut [0; ROOM]), refused(number, 0));
        assert_eq!(take(&mut state, &[], &mut [0; ROOM - 1]), refused(1, 0));
        assert_eq!(state, before);
        assert_eq!(reset(&mut state), 0);
        assert_eq!(take(&mut state, &frame(&[1]), &mut [0; ROOM]).complete, 1);
    }
    assert_eq!(reset(&mut [0; STATE - 1]), 21);
}

#[test]
fn states_that_no_stream_leaves() {
    let state = |numbers: [u8; 5], contents: &[u8]| {
        let mut octets = [&numbers[..], contents].concat();
        octets.resize(STATE, 0);
        Stream::from_state(&octets)
    };
    assert_eq!(state([0, 0, 0, 0, 0], &[]), Some(Stream::fresh()));
    assert!(state([0, 0, 4, 0xFF, 0], &[]).is_some());
    assert!(state([1, 0, 1, 0, 2], &[7]).is_some());
    assert!(state([1, 0, 1, 0, 2], &[0]).is_some());
    for numbers in [
        [0, 0, 5, 0, 0],
        [0, 0, 3, 1, 0],
        [0, 0, 4, 1, 1],
        [1, 0, 2, 0, 2],
        [1, 0, 0, 0, 0],
        [1, 0, 0, 5, 0xC1],
        [2, 0, 0, 0, 0],
        [21, 0, 1, 0, 0],
    ] {
        assert_eq!(state(numbers, &[]), None, "{numbers:?}");
    }
    assert_eq!(state([1, 0, 1, 0, 2], &[7, 7]), None);
    assert_eq!(state([22, 0, 0, 0, 0], &[1]), None);
    assert_eq!(Stream::from_state(&[0; STATE + 1]), None);
}
