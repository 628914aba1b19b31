//! Single clauses of E12 and its rulings, by hand: the source-routing bridge, device 2.

mod common;

use common::*;
use refbridge_model::model::calls;
use refbridge_model::model::message::Content;
use refbridge_model::model::names::{LARGEST_FRAMES, TABLE};
use refbridge_model::Bridge;

const ABSENT: Content = Content::NoSuchInstance;
const UNKNOWN: Content = Content::NoSuchObject;

/// Pairs of these ports, each enabled and with the bridge number 1.
fn with_pairs(ports: u32, pairs: &[(u32, u32)]) -> Bridge {
    let mut bridge = routing(ports);
    for (low, high) in pairs {
        let (number, state) = (format!("3.5.1.3.{low}.{high}"), format!("3.5.1.4.{low}.{high}"));
        assert_eq!(set(&mut bridge, &[(&number, integer(1)), (&state, integer(1))]), (0, 0));
    }
    bridge
}

/// The first so many pairs of 16 ports.
fn first_pairs(count: usize) -> Vec<(u32, u32)> {
    (1..=16).flat_map(|low| (low + 1..=16).map(move |high| (low, high))).take(count).collect()
}

#[test]
fn the_table_is_document_004s() {
    assert_eq!((LARGEST_FRAMES.len(), LARGEST_FRAMES[0], LARGEST_FRAMES[63]), (64, 516, 65535));
    assert!(LARGEST_FRAMES.is_sorted() && LARGEST_FRAMES.contains(&1470) && !LARGEST_FRAMES.contains(&1500));
    let of_routing: Vec<&[u32]> = TABLE.iter().filter(|entry| entry.is_of(2)).map(|entry| entry.prefix).collect();
    let wanted: [&[u32]; 10] = [
        &[1, 1],
        &[1, 2],
        &[1, 3],
        &[1, 4, 1, 1],
        &[1, 4, 1, 2],
        &[3, 1, 1, 6],
        &[3, 5, 1, 1],
        &[3, 5, 1, 2],
        &[3, 5, 1, 3],
        &[3, 5, 1, 4],
    ];
    assert_eq!(of_routing, wanted);
    assert_eq!(TABLE.iter().filter(|entry| entry.is_of(1)).count(), 35);
}

#[test]
fn what_each_device_has() {
    let (first, second) = (fresh(4), routing(4));
    assert_eq!((get(&first, "1.3.0"), get(&second, "1.3.0")), (integer(2), integer(3)));
    assert_eq!((get(&first, "1.2.0"), get(&second, "1.2.0")), (integer(4), integer(4)));
    assert_eq!((get(&first, "3.1.1.6.1"), get(&second, "3.1.1.6.1")), (UNKNOWN, integer(1470)));
    assert_eq!((get(&first, "3.5.1.4.1.2"), get(&second, "3.5.1.4.1.2")), (UNKNOWN, ABSENT));
    for text in ["2.2.0", "2.12.0", "2.15.1.2.1", "4.2.0", "5.1.1.4", "6.1.2.1.1.1.1", "7.1.1.4.0", "7.1.4.3.1.5.1"] {
        assert_eq!(get(&second, text), UNKNOWN, "{text}");
        assert_eq!(set(&mut routing(4), &[(text, integer(1))]), (17, 1), "{text}");
    }
    // Ruling 69: what 004 has beside these is absent.
    for text in ["3.1.1.1.1", "3.1.1.5.1", "3.1.1.7.1", "3.2.0", "3.3.0", "3.4.0", "3.1.1", "3.5.1", "3"] {
        assert_eq!(get(&second, text), UNKNOWN, "{text}");
    }
    for (text, value) in [("3.1.1.6.1", 1470), ("3.5.1.3.1.2", 1), ("3.5.1.4.1.2", 3)] {
        assert_eq!(set(&mut fresh(4), &[(text, integer(value))]), (17, 1), "{text}");
    }
}

#[test]
fn a_walk() {
    let mut bridge = with_pairs(3, &[(2, 3), (1, 3)]);
    assert_eq!(set(&mut bridge, &[("3.5.1.4.2.3", integer(2)), ("3.1.1.6.2", integer(516))]), (0, 0));
    let mut names = Vec::new();
    let mut at = "0".to_string();
    while let Some(name) = next(&bridge, &at) {
        names.push(name.clone());
        at = name;
    }
    let wanted = "1.1.0 1.2.0 1.3.0 1.4.1.1.1 1.4.1.1.2 1.4.1.1.3 1.4.1.2.1 1.4.1.2.2 1.4.1.2.3 \
                  3.1.1.6.1 3.1.1.6.2 3.1.1.6.3 3.5.1.1.1.3 3.5.1.1.2.3 3.5.1.2.1.3 3.5.1.2.2.3 \
                  3.5.1.3.1.3 3.5.1.3.2.3 3.5.1.4.1.3 3.5.1.4.2.3";
    assert_eq!(names.join(" "), wanted);
    assert_eq!(get(&bridge, "3.5.1.1.1.3"), integer(1));
    assert_eq!(get(&bridge, "3.5.1.2.1.3"), integer(3));
    assert_eq!(get(&bridge, "3.5.1.4.2.3"), integer(2));
    assert_eq!(get(&bridge, "3.1.1.6.2"), integer(516));
    // Between the objects of the other device.
    assert_eq!(next(&bridge, "1.4.1.2.3").as_deref(), Some("3.1.1.6.1"));
    assert_eq!(next(&bridge, "2.2").as_deref(), Some("3.1.1.6.1"));
    assert_eq!(next(&bridge, "3.5.1.4.1").as_deref(), Some("3.5.1.4.1.3"));
    assert_eq!(next(&bridge, "3.5.1.4.1.3.0").as_deref(), Some("3.5.1.4.2.3"));
    assert_eq!(next(&bridge, "3.5.1.4.2.3"), None);
    assert_eq!(next(&fresh(3), "2.15.1.5.3").as_deref(), Some("4.2.0"));
}

#[test]
fn largest_frames() {
    for number in 0..=66_000 {
        let wanted = if LARGEST_FRAMES.contains(&number) { (0, 0) } else { (10, 1) };
        assert_eq!(set(&mut routing(1), &[("3.1.1.6.1", integer(number as i32))]), wanted, "{number}");
    }
    assert_eq!(set(&mut routing(1), &[("3.1.1.6.1", Content::Unsigned(1470))]), (7, 1));
    assert_eq!(set(&mut routing(4), &[("3.1.1.6.5", integer(1470))]), (11, 1));
    assert_eq!(set(&mut routing(4), &[("3.1.1.6.5", integer(1471))]), (10, 1));
}

#[test]
fn ports_of_a_pair() {
    let mut bridge = routing(4);
    for (index, fault) in
        [("1.1", 11), ("2.1", 11), ("0.1", 11), ("1.5", 11), ("4.5", 11), ("1", 11), ("1.2.3", 11), ("3.4", 0)]
    {
        let (number, state) = (format!("3.5.1.3.{index}"), format!("3.5.1.4.{index}"));
        let both = [(number.as_str(), integer(0)), (state.as_str(), integer(1))];
        assert_eq!(set(&mut bridge, &both).0, fault, "{index}");
    }
    // A state that is wrong comes first, and a read-only port before all.
    assert_eq!(set(&mut bridge, &[("3.5.1.4.2.1", integer(0))]), (10, 1));
    assert_eq!(set(&mut bridge, &[("3.5.1.3.2.1", integer(16))]), (10, 1));
    assert_eq!(set(&mut bridge, &[("3.5.1.1.2.1", integer(2))]), (17, 1));
    assert_eq!(set(&mut bridge, &[("3.5.1.2.3.4", integer(4))]), (17, 1));
    assert_eq!(bridge.pairs.len(), 1);
}

#[test]
fn states_and_numbers() {
    let mut bridge = routing(4);
    for state in [0, 4, 5, 6, -1, i32::MIN] {
        assert_eq!(set(&mut bridge, &[("3.5.1.4.1.2", integer(state))]), (10, 1));
    }
    for number in [-1, 16, 255] {
        assert_eq!(set(&mut bridge, &[("3.5.1.3.1.2", integer(number))]), (10, 1));
    }
    // A number alone, a state alone, and a state with a number at fault.
    assert_eq!(set(&mut bridge, &[("3.5.1.3.1.2", integer(5))]), (18, 1));
    assert_eq!(set(&mut bridge, &[("3.5.1.4.1.2", integer(1))]), (12, 1));
    assert_eq!(set(&mut bridge, &[("3.5.1.4.1.2", integer(2)), ("3.5.1.3.1.2", integer(16))]), (12, 1));
    assert_eq!(set(&mut bridge, &[("3.5.1.4.1.2", integer(2)), ("3.5.1.3.1.2", string(b"5"))]), (12, 1));
    assert_eq!(set(&mut bridge, &[("3.5.1.4.1.2", integer(2)), ("3.5.1.3.1.3", integer(5))]), (12, 1));
    // invalid of an absent pair does nothing, and its number has no row.
    assert_eq!(set(&mut bridge, &[("3.5.1.4.1.2", integer(3))]), (0, 0));
    assert_eq!(set(&mut bridge, &[("3.5.1.4.1.2", integer(3)), ("3.5.1.3.1.2", integer(5))]), (18, 2));
    assert_eq!(bridge, routing(4));
    // Made, whichever of the two comes first; then each by itself.
    assert_eq!(set(&mut bridge, &[("3.5.1.3.1.2", integer(15)), ("3.5.1.4.1.2", integer(2))]), (0, 0));
    assert_eq!((get(&bridge, "3.5.1.3.1.2"), get(&bridge, "3.5.1.4.1.2")), (integer(15), integer(2)));
    assert_eq!(set(&mut bridge, &[("3.5.1.4.1.2", integer(1))]), (0, 0));
    assert_eq!(set(&mut bridge, &[("3.5.1.3.1.2", integer(0))]), (0, 0));
    assert_eq!((get(&bridge, "3.5.1.3.1.2"), get(&bridge, "3.5.1.4.1.2")), (integer(0), integer(1)));
    // The number of a pair that goes.
    assert_eq!(set(&mut bridge, &[("3.5.1.3.1.2", integer(5)), ("3.5.1.4.1.2", integer(3))]), (12, 1));
    assert_eq!(set(&mut bridge, &[("3.5.1.4.1.2", integer(3))]), (0, 0));
    assert_eq!(bridge, routing(4));
}

#[test]
fn room_for_64() {
    let full = with_pairs(16, &first_pairs(64));
    let made = [("3.5.1.3.15.16", integer(1)), ("3.5.1.4.15.16", integer(1))];
    assert_eq!(set(&mut full.clone(), &made), (13, 2));
    // 12 before 13; no room from a pair that is absent, room from one that goes.
    assert_eq!(set(&mut full.clone(), &made[1..]), (12, 1));
    let absent_goes = [made.as_slice(), &[("3.5.1.4.14.16", integer(3))]].concat();
    assert_eq!(set(&mut full.clone(), &absent_goes), (13, 2));
    let one_goes = [made.as_slice(), &[("3.5.1.4.1.2", integer(3))]].concat();
    assert_eq!(set(&mut full.clone(), &one_goes), (0, 0));
    // Pairs that stand need no room.
    assert_eq!(set(&mut full.clone(), &[("3.5.1.4.1.2", integer(2)), ("3.5.1.3.1.2", integer(2))]), (0, 0));
    // One place is left: a pair that lacks its number counts as made.
    let nearly = with_pairs(16, &first_pairs(63));
    assert_eq!(set(&mut nearly.clone(), &made), (0, 0));
    let lacking = [("3.5.1.4.14.16", integer(1))];
    assert_eq!(set(&mut nearly.clone(), &[made.as_slice(), &lacking].concat()), (13, 2));
    assert_eq!(set(&mut nearly.clone(), &[lacking.as_slice(), &made].concat()), (12, 1));
}

#[test]
fn what_names_a_row() {
    let bridge = with_pairs(4, &[(1, 2)]);
    let crosses = |a: &str, b: &str| bridge.may_cross(&[binding(a, integer(1))], &[binding(b, integer(1))]);
    assert!(!crosses("3.5.1.3.1.2", "3.5.1.4.1.2"));
    assert!(!crosses("3.5.1.1.1.3", "3.5.1.4.1.3"));
    assert!(crosses("3.5.1.4.1.2", "3.5.1.4.1.3"));
    assert!(crosses("3.5.1.4.2.1", "3.5.1.4.2.1"));
    assert!(!crosses("3.1.1.6.1", "3.1.1.6.1"));
    assert!(crosses("3.1.1.6.1", "1.4.1.1.1"));
    // What the other device has names nothing.
    assert!(crosses("2.2.0", "2.2.0"));
    assert!(crosses("7.1.4.3.1.5.1", "7.1.4.3.1.5.1"));
    let first = fresh(4);
    assert!(first.may_cross(&[binding("3.5.1.4.1.2", integer(1))], &[binding("3.5.1.4.1.2", integer(1))]));
    // Room for 64 pairs.
    let nearly = with_pairs(16, &first_pairs(63));
    let named = |index: &str| [binding(&format!("3.5.1.4.{index}"), integer(3))];
    assert!(nearly.may_cross(&named("15.16"), &named("1.2")));
    assert!(!nearly.may_cross(&named("15.16"), &named("14.16")));
}

#[test]
fn octets_of_a_block() {
    let block = routing(4).image();
    assert_eq!(block[..32], hex("00000004 00000000 00000000 00000000 001122334455 0000 01 02 0000 00000000"));
    assert!(block[32..816].iter().all(|octet| *octet == 0));
    assert_eq!(block[816..836], hex("000005BE 000005BE 000005BE 000005BE 00000000"));
    assert!(block[832..].iter().all(|octet| *octet == 0));
    let mut bridge = with_pairs(4, &[(3, 4), (1, 2)]);
    assert_eq!(set(&mut bridge, &[("3.5.1.4.3.4", integer(2)), ("3.5.1.3.3.4", integer(15))]), (0, 0));
    let block = bridge.image();
    assert_eq!(block[28..32], hex("00000002"));
    assert_eq!(block[25652..25664], hex("01020101 03040F02 00000000"));
    assert_eq!(Bridge::from_block(&block), Some(bridge));
}

#[test]
fn blocks_that_are_not_legal() {
    let (first, second) = (fresh(4).image(), with_pairs(4, &[(1, 2), (1, 3)]).image());
    let legal = |block: &[u8], offset: usize, octets: &str| {
        let (mut block, octets) = (block.to_vec(), hex(octets));
        block[offset..offset + octets.len()].copy_from_slice(&octets);
        Bridge::from_block(&block).is_some()
    };
    assert!(legal(&second, 0, "") && legal(&first, 0, ""));
    for (offset, octets) in [
        (25, "00"),
        (25, "01"),
        (25, "03"),
        (26, "01"),
        (27, "01"),
        // One device's contents in the other: VlanNumDeletes, a VLAN row, a static row, the total, cells.
        (4, "00000001"),
        (8, "00000001"),
        (12, "00000001"),
        (22, "0001"),
        (32, "00008000"),
        (48, "00000080"),
        (1072, "0000012C"),
        // Pairs: their number, order, ports, bridge number, state, and what is behind the last.
        (28, "00000001"),
        (28, "00000003"),
        (28, "00000041"),
        (28, "01000002"),
        (25652, "01030101"),
        (25652, "01040101"),
        (25652, "00020101"),
        (25652, "01010101"),
        (25652, "02010101"),
        (25656, "01050101"),
        (25652, "01021001"),
        (25652, "01020100"),
        (25652, "01020103"),
        (25660, "01"),
        (25907, "01"),
        (25908, "01"),
        // Largest frames: a number between two, none, and one of a port above N.
        (816, "000005DC"),
        (816, "00000000"),
        (816, "000105BE"),
        (832, "000005BE"),
    ] {
        assert!(!legal(&second, offset, octets), "{offset}: {octets}");
    }
    for (offset, octets) in [(24, "02"), (816, "00000204"), (25652, "01020F02"), (25656, "02040001")] {
        assert!(legal(&second, offset, octets), "{offset}: {octets}");
    }
    for (offset, octets) in [(25, "02"), (28, "00000001"), (816, "000005BE"), (25652, "01020101")] {
        assert!(!legal(&first, offset, octets), "{offset}: {octets}");
    }
}

#[test]
fn set_up_and_reset() {
    let mut block = vec![0x5A; 32768];
    for device in [0, 3, 257, 258, u32::MAX] {
        assert_eq!(calls::set_up(&mut block, 4, 1, device, &ADDRESS), (9, 0, 0));
    }
    assert!(block.iter().all(|octet| *octet == 0x5A));
    for edition in [1, 2] {
        assert_eq!(calls::set_up(&mut block, 4, edition, 2, &ADDRESS), (0, 0, 0));
        assert_eq!(Bridge::from_block(&block), Bridge::fresh(4, edition, 2, &ADDRESS));
    }
    let before = with_pairs(4, &[(1, 2), (1, 3)]).image();
    let mut after = before.clone();
    assert_eq!(calls::reset(&mut after), (0, 0, 0));
    assert_eq!(after, before);
}
