//! Get, get-next and walks; the image of a block; the terms of demand 3.

mod common;

use common::*;
use refbridge_model::model::bridge::{all_ports, StaticRow, VlanRow};
use refbridge_model::model::calls;
use refbridge_model::model::message::{Binding, Content};
use refbridge_model::model::names::{type_of, Object, TABLE};
use refbridge_model::Bridge;

/// A bridge with rows in both growing tables.
fn with_rows(ports: u32) -> Bridge {
    let mut bridge = fresh(ports);
    for id in [2, 10, 100, 4094] {
        let row =
            VlanRow { active: id != 10, name: vec![0; id as usize % 33], egress: all_ports(1), ..VlanRow::default() };
        bridge.vlans.insert(id, row);
    }
    for index in [[0; 7], [0, 0, 0, 0, 0, 255, ports], [10, 9, 8, 7, 6, 5, 1], [255, 0, 0, 0, 0, 0, 0]] {
        bridge.statics.insert(index, StaticRow { allowed: all_ports(ports), status: 5 });
    }
    bridge
}

#[test]
fn the_table_is_ascending_and_no_prefix_begins_another() {
    for pair in TABLE.windows(2) {
        assert!(pair[0].prefix < pair[1].prefix && !pair[1].prefix.starts_with(pair[0].prefix));
    }
    for entry in &TABLE {
        assert_eq!(type_of(entry.object).prefix, entry.prefix);
    }
}

#[test]
fn bare_columns_and_longer_names() {
    let bridge = with_rows(4);
    for text in
        ["1.2", "1.4.1.1", "1.2.0.0", "1.4.1.1.5", "7.1.4.3.1.5.3", "5.1.1.1.0.0.0.0.0.0", "5.1.1.1.0.0.0.0.0.0.5"]
    {
        assert_eq!(get(&bridge, text), Content::NoSuchInstance, "{text}");
    }
    for text in ["1.4.1", "", "2.15.1.3.1", "7.1.1.5.0", "8"] {
        assert_eq!(get(&bridge, text), Content::NoSuchObject, "{text}");
    }
    let elsewhere = bridge.get_binding(&[1, 3]);
    assert_eq!(elsewhere, Binding { name: vec![1, 3], content: Content::NoSuchObject });
}

#[test]
fn names_compare_as_numbers() {
    let bridge = with_rows(12);
    assert_eq!(next(&bridge, "1.4.1.1.9").as_deref(), Some("1.4.1.1.10"));
    assert_eq!(next(&bridge, "7.1.4.3.1.5.2").as_deref(), Some("7.1.4.3.1.5.10"));
    assert_eq!(next(&bridge, "7.1.4.3.1.5.4294967295").as_deref(), Some("7.1.4.5.1.1.1"));
    assert_eq!(next(&bridge, "2.2").as_deref(), Some("2.2.0"));
    assert_eq!(next(&bridge, "2.2.0").as_deref(), Some("2.12.0"));
    assert_eq!(next(&bridge, "5.1.1.2.0.0.0.0.0.300").as_deref(), Some("5.1.1.2.10.9.8.7.6.5.1"));
    assert_eq!(next(&bridge, "6.1.2.3.1.2.1.7.1").as_deref(), Some("6.1.2.3.1.2.2.0"));
    assert_eq!(next(&bridge, "6.1.2.3.1.2.12.7").as_deref(), Some("7.1.1.1.0"));
    assert_eq!(bridge.next_binding(&[0, 0]).name, name("1.1.0"));
    assert_eq!(bridge.next_binding(&[1, 3, 6, 1, 2, 1]).name, name("1.1.0"));
    assert_eq!(bridge.next_binding(&[1, 3, 6, 1, 2, 1, 18]).content, Content::EndOfMibView);
    assert_eq!(bridge.next_binding(&[2, 0]).name, vec![2, 0]);
}

#[test]
fn a_walk_meets_every_instance_in_order() {
    for ports in [1, 4, 64] {
        let bridge = with_rows(ports);
        let mut at = vec![0, 0];
        let mut met = 0;
        loop {
            let next = bridge.next_binding(&at);
            if next.content == Content::EndOfMibView {
                break;
            }
            assert!(next.name > at);
            assert_eq!(bridge.get_binding(&next.name), next);
            at = next.name;
            met += 1;
        }
        // Scalars, port columns, columns of the two priority maps, static and VLAN columns.
        assert_eq!(met, 13 + ports * (2 + 4 + 2 + 3) + ports * 16 + 4 * 4 + 5 * 5);
    }
}

#[test]
fn port_sets_are_read_in_as_many_octets_as_the_ports_need() {
    for (ports, octets) in [(1, 1), (8, 1), (9, 2), (63, 8), (64, 8)] {
        let Content::String(egress) = get(&fresh(ports), "7.1.4.3.1.2.1") else { panic!() };
        assert_eq!(egress.len(), octets);
        assert_eq!(egress.iter().map(|octet| octet.count_ones()).sum::<u32>(), ports);
    }
}

#[test]
fn an_image_is_read_back() {
    for ports in [1, 4, 8, 9, 63, 64] {
        for bridge in [fresh(ports), with_rows(ports)] {
            assert_eq!(Bridge::from_block(&bridge.image()), Some(bridge));
        }
    }
}

#[test]
fn fresh_octets() {
    let block = fresh(4).image();
    assert_eq!(block[..32], hex("00000004 00000000 00000001 00000000 001122334455 0001 01 01 0000 00000000"));
    assert_eq!(block[32..52], hex("00008000 000007D0 000000C8 000005DC 00000080"));
    assert_eq!(block[6196..6200], hex("0001 01 00"));
    assert_eq!(block[6196 + 36..6196 + 60], hex("F000000000000000 0000000000000000 F000000000000000"));
    assert_eq!(block.len(), 32768);
}

/// The stored total (octets 22 and 23) follows every change of the active rows.
#[test]
fn the_total_of_active_rows() {
    let mut bridge = fresh(4);
    let status = |id: u32, status: i32| vec![(format!("7.1.4.3.1.5.{id}"), integer(status))];
    let of_many = |wanted: i32| (2..18).flat_map(|id| status(id, wanted)).collect();
    let steps: [(Vec<(String, Content)>, u16); 10] = [
        (status(10, 5), 1),
        (status(10, 1), 2),
        (status(10, 1), 2),
        (status(10, 2), 1),
        (status(10, 6), 1),
        (of_many(4), 17),
        (status(20, 6), 17),
        (of_many(6), 1),
        (status(1, 2), 0),
        (status(1, 6), 0),
    ];
    for (message, total) in steps {
        let message: Vec<(&str, Content)> =
            message.iter().map(|(text, value)| (text.as_str(), value.clone())).collect();
        assert_eq!(set(&mut bridge, &message), (0, 0));
        let mut block = bridge.image();
        assert_eq!(
            (&block[22..24], get(&bridge, "7.1.1.4.0")),
            (&total.to_be_bytes()[..], Content::Unsigned(total.into()))
        );
        assert_eq!(calls::reset(&mut block), (0, 0, 0));
        assert_eq!(block[22..24], total.to_be_bytes());
    }
    // A row out of service, with the total that fits and with the one before.
    let mut block = with_rows(4).image();
    assert_eq!(block[22..24], [0, 4]);
    block[6198] = 2;
    assert_eq!(Bridge::from_block(&block), None);
    block[23] = 3;
    assert_eq!(Bridge::from_block(&block).map(|bridge| bridge.active_vlans()), Some(3));
}

/// Blocks that differ from a legal one in a few octets and are not legal.
#[test]
fn blocks_that_are_not_legal() {
    let legal = with_rows(4).image();
    let (vlan, fixed) = (6196, 21556);
    let changes: [(usize, &[u8]); 30] = [
        (3, &[0]),
        (3, &[65]),
        (11, &[4]),
        (11, &[6]),
        (10, &[1, 1]),
        (15, &[3]),
        (22, &[1]),
        (23, &[0]),
        (24, &[0]),
        (24, &[3]),
        (25, &[2]),
        (26, &[1]),
        (36, &[0, 0, 2, 87]),
        (40, &[0, 0, 3, 133]),
        (44, &[0, 0, 4, 75]),
        (64, &[0, 0, 0, 1]),
        (816, &[0, 0, 5, 0xBE]),
        (5940, &[1]),
        (vlan, &[0, 2]),
        (vlan, &[0, 0]),
        (vlan + 2, &[0]),
        (vlan + 2, &[3]),
        (vlan + 3, &[33]),
        (vlan + 4, &[1]),
        (vlan + 36, &[0x08]),
        (vlan + 44, &[0x80]),
        (vlan + 60 * 4, &[0x0F, 0xFF]),
        (fixed + 6, &[5]),
        (fixed + 7, &[2]),
        (25652, &[1]),
    ];
    assert!(Bridge::from_block(&legal).is_some());
    for (offset, octets) in changes {
        let mut block = legal.clone();
        block[offset..offset + octets.len()].copy_from_slice(octets);
        assert_eq!(Bridge::from_block(&block), None, "{offset}: {octets:?}");
    }
    assert_eq!(Bridge::from_block(&legal[..32767]), None);
}

/// Fresh contents are legal in both editions, and in edition 2 priorities stand in steps.
#[test]
fn editions_of_a_block() {
    let (old, new) = (fresh(4).image(), Bridge::fresh(4, 2, 1, &ADDRESS).unwrap().image());
    let differing: Vec<usize> = (0..old.len()).filter(|at| old[*at] != new[*at]).collect();
    assert_eq!((differing, old[24], new[24]), (vec![24], 1, 2));
    let legal = |edition: u8, start: usize, priority: u32| {
        let mut block = old.clone();
        block[24] = edition;
        block[start..start + 4].copy_from_slice(&priority.to_be_bytes());
        Bridge::from_block(&block).is_some()
    };
    let of_bridge = [0, 1, 4095, 4096, 32768, 61439, 61440, 61441, 65535, 65536];
    let of_port = [0, 1, 15, 16, 128, 239, 240, 241, 255, 256];
    for (start, priorities) in [(32, of_bridge), (48, of_port)] {
        assert_eq!(priorities.map(|priority| legal(1, start, priority)), [[true; 9].as_slice(), &[false]].concat()[..]);
        let stepped = [true, false, false, true, true, false, true, false, false, false];
        assert_eq!(priorities.map(|priority| legal(2, start, priority)), stepped);
    }
}

#[test]
fn what_two_messages_name_in_common() {
    let bridge = with_rows(4);
    let crosses = |a: &str, b: &str| bridge.may_cross(&[binding(a, integer(1))], &[binding(b, integer(1))]);
    assert!(!crosses("2.2.0", "2.2.0"));
    assert!(crosses("2.2", "2.2.0"));
    // The three timers are one scalar.
    for (one, other) in [("2.12.0", "2.12.0"), ("2.12.0", "2.13.0"), ("2.13.0", "2.14.0"), ("2.14.0", "2.12.0")] {
        assert!(!crosses(one, other) && !crosses(other, one));
    }
    assert!(crosses("2.12.0", "2.2.0"));
    assert!(crosses("2.12", "2.13.0"));
    assert!(crosses("2.12.1", "2.13.0"));
    assert!(!crosses("2.15.1.1.3", "2.15.1.5.3"));
    assert!(crosses("2.15.1.3.3", "2.15.1.5.3"));
    assert!(crosses("2.15.1.2.3", "7.1.4.5.1.2.3"));
    assert!(crosses("6.1.2.2.1.2.3.4", "6.1.2.3.1.2.3.4"));
    assert!(crosses("6.1.2.2.1.2.3.4", "6.1.2.2.1.2.3.5"));
    assert!(!crosses("7.1.4.3.1.1.10", "7.1.4.3.1.5.10"));
    assert!(crosses("7.1.4.3.1.1.5000", "7.1.4.3.1.5.5000"));
    assert!(!crosses("5.1.1.1.0.0.0.0.0.0.0", "5.1.1.4.0.0.0.0.0.0.0"));
}

#[test]
fn room_for_all_rows_that_two_messages_name() {
    let mut bridge = fresh(4);
    for id in 2..=255 {
        bridge.vlans.insert(id, VlanRow::default());
    }
    let named = |id: u32| [binding(&format!("{}.{id}", "7.1.4.3.1.5"), integer(6))];
    assert_eq!(type_of(Object::VlanRowStatus).prefix, [7, 1, 4, 3, 1, 5]);
    assert!(bridge.may_cross(&named(300), &named(255)));
    assert!(!bridge.may_cross(&named(300), &named(301)));
}
