//! Each fault of a set, their order, and what accepted sets do.

mod common;

use common::*;
use refbridge_model::model::bridge::{StaticRow, VlanRow};
use refbridge_model::model::message::Content;
use refbridge_model::Bridge;

/// Adds VLAN rows from id 1000 on until there are so many.
fn fill_vlans(bridge: &mut Bridge, rows: usize) {
    for id in (1000..).take(rows - bridge.vlans.len()) {
        bridge.vlans.insert(id, VlanRow { active: true, ..VlanRow::default() });
    }
}

#[test]
fn gen_err_looks_at_names_only() {
    let repeated = [("2.2.0", integer(1)), ("2.2.0", integer(2))];
    assert_eq!(set(&mut fresh(4), &repeated), (5, 2));
    // The first of two equal names is judged by itself, and the second makes nothing.
    let first_wrong = [("7.1.4.3.1.5.10", integer(3)), ("7.1.4.3.1.5.10", integer(4))];
    assert_eq!(set(&mut fresh(4), &first_wrong), (10, 1));
    let column_first =
        [("7.1.4.3.1.1.10", string(b"x")), ("7.1.4.3.1.5.10", integer(3)), ("7.1.4.3.1.5.10", integer(4))];
    assert_eq!(set(&mut fresh(4), &column_first), (18, 1));
}

#[test]
fn not_writable() {
    for text in ["1.2.0", "9", "", "2.15.1.1.1", "2.15.1.3.1", "7.1.1.4.0", "7.1.4.1.0", "5.1.1.1.0.1.2.3.4.5.0", "2"] {
        assert_eq!(set(&mut fresh(4), &[(text, integer(1))]), (17, 1), "{text}");
    }
}

#[test]
fn type_length_value_and_index_in_this_order() {
    let fault = |text: &str, content: Content| set(&mut fresh(4), &[(text, content)]).0;
    assert_eq!(fault("2.2", string(b"")), 7);
    assert_eq!(fault("2.2", integer(-1)), 10);
    assert_eq!(fault("2.2", integer(1)), 11);
    assert_eq!(fault("2.2.1", integer(1)), 11);
    assert_eq!(fault("2.2.0.0", integer(1)), 11);
    assert_eq!(fault("7.1.4.5.1.1.1", integer(1)), 7);
    assert_eq!(fault("7.1.4.5.1.1.1", Content::Counter(1)), 7);
    assert_eq!(fault("7.1.4.5.1.1.1", Content::Unsigned(0)), 10);
    assert_eq!(fault("7.1.4.5.1.1.1", Content::Unsigned(4094)), 0);
    assert_eq!(fault("7.1.4.5.1.1.5", Content::Unsigned(4094)), 11);
    assert_eq!(fault("7.1.4.3.1.1.4095", string(&[0; 33])), 8);
    assert_eq!(fault("7.1.4.3.1.1.4095", string(&[0; 32])), 11);
    assert_eq!(fault("7.1.4.3.1.1.0", string(&[])), 11);
    assert_eq!(fault("7.1.4.3.1.1.1", string(&[0xFF; 32])), 0);
    assert_eq!(fault("7.1.4.3.1.2.1", string(&[0; 9])), 8);
    assert_eq!(fault("7.1.4.3.1.2.1", string(&[0; 8])), 0);
    assert_eq!(fault("7.1.4.3.1.2.1", string(&[0x08])), 10);
    assert_eq!(fault("7.1.4.3.1.2.1", string(&[0, 0, 1])), 10);
    assert_eq!(fault("6.1.2.3.1.2.1.8", integer(0)), 11);
    assert_eq!(fault("6.1.2.3.1.2.1.7", integer(8)), 10);
    assert_eq!(fault("5.1.1.4.0.1.2.3.4.5.5", integer(3)), 11);
    assert_eq!(fault("5.1.1.4.0.1.2.3.4.256.0", integer(3)), 11);
    assert_eq!(fault("5.1.1.4.0.1.2.3.4.5", integer(1)), 10);
    assert_eq!(fault("5.1.1.4.0.1.2.3.4.5.4", integer(3)), 0);
}

#[test]
fn ranges_of_the_settings() {
    let ranges = [
        ("2.2.0", 0, 65535),
        ("2.15.1.2.4", 0, 255),
        ("2.15.1.4.4", 1, 2),
        ("2.15.1.5.4", 1, 65535),
        ("4.2.0", 10, 1000000),
        ("6.1.2.1.1.1.4", 0, 7),
        ("6.1.2.2.1.2.4.7", 0, 7),
        ("6.1.2.3.1.2.4.7", 0, 7),
        ("7.1.4.5.1.2.4", 1, 2),
        ("7.1.4.5.1.3.4", 1, 2),
    ];
    for (text, low, high) in ranges {
        let mut bridge = fresh(4);
        for number in [low, high] {
            assert_eq!(set(&mut bridge, &[(text, integer(number))]), (0, 0), "{text}");
            assert_eq!(get(&bridge, text), integer(number));
        }
        for number in [low - 1, high + 1, i32::MIN, i32::MAX] {
            assert_eq!(set(&mut bridge, &[(text, integer(number))]), (10, 1), "{text}");
        }
    }
}

/// The lower ends of the timers' ranges belong together, and so do the upper ones.
#[test]
fn ranges_of_the_timers() {
    let ranges = [("2.12.0", 600, 4000), ("2.13.0", 100, 1000), ("2.14.0", 400, 3000)];
    let mut bridge = fresh(4);
    for ends in [ranges.map(|(text, low, _)| (text, integer(low))), ranges.map(|(text, _, high)| (text, integer(high)))]
    {
        assert_eq!(set(&mut bridge, &ends), (0, 0));
        for (text, number) in ends {
            assert_eq!(get(&bridge, text), number);
        }
    }
    for (text, low, high) in ranges {
        for number in [low - 1, high + 1, i32::MIN, i32::MAX] {
            assert_eq!(set(&mut bridge, &[(text, integer(number))]), (10, 1), "{text}");
        }
    }
}

#[test]
fn inconsistent_name() {
    for status in [1, 2, 6] {
        let both = [("7.1.4.3.1.2.10", string(&[])), ("7.1.4.3.1.5.10", integer(status))];
        assert_eq!(set(&mut fresh(4), &both), (18, 1));
    }
    assert_eq!(set(&mut fresh(4), &[("5.1.1.3.0.1.2.3.4.5.0", string(&[]))]), (18, 1));
    // A making binding that is itself at fault with 5 to 11 makes nothing.
    let other_row = [("7.1.4.3.1.1.10", string(&[])), ("7.1.4.3.1.5.11", integer(4))];
    assert_eq!(set(&mut fresh(4), &other_row), (18, 1));
}

#[test]
fn status_against_presence() {
    assert_eq!(set(&mut fresh(4), &[("7.1.4.3.1.5.1", integer(4))]), (12, 1));
    assert_eq!(set(&mut fresh(4), &[("7.1.4.3.1.5.1", integer(5))]), (12, 1));
    assert_eq!(set(&mut fresh(4), &[("7.1.4.3.1.5.2", integer(1))]), (12, 1));
    assert_eq!(set(&mut fresh(4), &[("7.1.4.3.1.5.2", integer(2))]), (12, 1));
    assert_eq!(set(&mut fresh(4), &[("7.1.4.3.1.5.1", integer(3))]), (10, 1));
    assert_eq!(set(&mut fresh(4), &[("7.1.4.3.1.5.1", integer(7))]), (10, 1));
    assert_eq!(set(&mut fresh(4), &[("5.1.1.4.0.1.2.3.4.5.0", integer(6))]), (10, 1));
    assert_eq!(set(&mut fresh(4), &[("5.1.1.4.0.1.2.3.4.5.0", integer(2))]), (0, 0));
}

#[test]
fn egress_and_forbidden_of_the_resulting_row() {
    let mut bridge = fresh(4);
    assert_eq!(set(&mut bridge, &[("7.1.4.3.1.3.1", string(&[0x80]))]), (12, 1));
    let both =
        [("7.1.4.3.1.1.1", string(b"x")), ("7.1.4.3.1.2.1", string(&[0x80])), ("7.1.4.3.1.3.1", string(&[0x80]))];
    assert_eq!(set(&mut bridge, &both), (12, 2));
    // A binding with a fault of 5 to 11 is left out, so that the old value counts.
    let left_out = [("7.1.4.3.1.3.1", string(&[0x80])), ("7.1.4.3.1.2.1", string(&[0x08]))];
    assert_eq!(set(&mut bridge, &left_out), (12, 1));
    let cleared = [("7.1.4.3.1.3.1", string(&[0x80])), ("7.1.4.3.1.2.1", string(&[0x70]))];
    assert_eq!(set(&mut bridge, &cleared), (0, 0));
    // 4 on a present row makes nothing: its resulting row is the present one.
    let present = [("7.1.4.3.1.2.1", string(&[0x80])), ("7.1.4.3.1.5.1", integer(4))];
    assert_eq!(set(&mut bridge, &present), (12, 1));
    // Untagged is judged against nothing.
    assert_eq!(set(&mut bridge, &[("7.1.4.3.1.4.1", string(&[0xF0]))]), (0, 0));
}

#[test]
fn resource_unavailable() {
    let mut bridge = fresh(4);
    fill_vlans(&mut bridge, 255);
    let two = [("7.1.4.3.1.5.10", integer(4)), ("7.1.4.3.1.5.11", integer(5))];
    assert_eq!(set(&mut bridge, &two), (13, 1));
    let absent_removed =
        [("7.1.4.3.1.5.12", integer(6)), ("7.1.4.3.1.5.10", integer(4)), ("7.1.4.3.1.5.11", integer(5))];
    assert_eq!(set(&mut bridge, &absent_removed), (13, 2));
    let one_removed = [("7.1.4.3.1.5.10", integer(4)), ("7.1.4.3.1.5.11", integer(5)), ("7.1.4.3.1.5.1", integer(6))];
    assert_eq!(set(&mut bridge, &one_removed), (0, 0));
    assert_eq!(bridge.vlans.len(), 256);
    let column_first = [("7.1.4.3.1.1.20", string(b"x")), ("7.1.4.3.1.5.20", integer(4))];
    assert_eq!(set(&mut bridge, &column_first), (13, 2));
    let exchanged = [("7.1.4.3.1.5.20", integer(4)), ("7.1.4.3.1.5.10", integer(6))];
    assert_eq!(set(&mut bridge, &exchanged), (0, 0));
    assert_eq!(set(&mut bridge, &[("5.1.1.4.0.1.2.3.4.5.0", integer(3))]), (0, 0));
}

#[test]
fn resource_unavailable_of_static_rows() {
    let mut bridge = fresh(4);
    for octet in 0..=255 {
        bridge.statics.insert([0, 0, 0, 0, 0, octet, 0], StaticRow { allowed: 0, status: 4 });
    }
    assert_eq!(set(&mut bridge, &[("5.1.1.4.0.0.0.0.0.7.0", integer(5))]), (0, 0));
    assert_eq!(set(&mut bridge, &[("5.1.1.4.0.0.0.0.0.7.1", integer(5))]), (13, 1));
    let exchanged = [("5.1.1.4.0.0.0.0.0.7.1", integer(5)), ("5.1.1.4.0.0.0.0.0.7.0", integer(2))];
    assert_eq!(set(&mut bridge, &exchanged), (0, 0));
    assert_eq!(get(&bridge, "5.1.1.3.0.0.0.0.0.7.1"), string(&[0xF0]));
}

#[test]
fn vlan_num_deletes_counts_rows_no_longer_active() {
    let mut bridge = fresh(4);
    bridge.vlan_deletes = u32::MAX;
    assert_eq!(set(&mut bridge, &[("7.1.4.3.1.5.10", integer(5))]), (0, 0));
    assert_eq!(set(&mut bridge, &[("7.1.4.3.1.5.10", integer(6))]), (0, 0));
    assert_eq!(get(&bridge, "7.1.4.1.0"), Content::Counter(u32::MAX));
    let two = [("7.1.4.3.1.5.1", integer(2)), ("7.1.4.3.1.5.11", integer(4))];
    assert_eq!(set(&mut bridge, &two), (0, 0));
    assert_eq!((get(&bridge, "7.1.4.1.0"), get(&bridge, "7.1.1.4.0")), (Content::Counter(0), Content::Unsigned(1)));
    assert_eq!(set(&mut bridge, &[("7.1.4.3.1.5.11", integer(6))]), (0, 0));
    assert_eq!((get(&bridge, "7.1.4.1.0"), get(&bridge, "7.1.1.4.0")), (Content::Counter(1), Content::Unsigned(0)));
}

#[test]
fn the_lowest_faulted_binding_is_named() {
    let mixed = [("2.2.0", integer(1)), ("2.12.0", integer(1)), ("1.2.0", integer(1))];
    assert_eq!(set(&mut fresh(4), &mixed), (10, 2));
    assert_eq!(set(&mut fresh(4), &[]), (0, 0));
}

/// MaxAge, HelloTime and ForwardDelay of a fresh bridge are 2000, 200 and 1500.
#[test]
fn timers_are_judged_together() {
    let judged = |bindings: &[(&str, i32)]| {
        let bindings: Vec<(&str, Content)> = bindings.iter().map(|(text, number)| (*text, integer(*number))).collect();
        set(&mut fresh(4), &bindings)
    };
    let (max_age, hello_time, forward_delay) = ("2.12.0", "2.13.0", "2.14.0");
    assert_eq!([1099, 1100].map(|number| judged(&[(forward_delay, number)])), [(12, 1), (0, 0)]);
    assert_eq!([900, 901].map(|number| judged(&[(hello_time, number)])), [(0, 0), (12, 1)]);
    assert_eq!([600, 2800, 2801].map(|number| judged(&[(max_age, number)])), [(0, 0), (0, 0), (12, 1)]);
    // Each timer binding gets 12, and no other one.
    assert_eq!(judged(&[("2.2.0", 1), (hello_time, 200), (max_age, 4000)]), (12, 2));
    assert_eq!(judged(&[(max_age, 4000), (forward_delay, 2100)]), (0, 0));
    assert_eq!(judged(&[(max_age, 4000), (forward_delay, 2099)]), (12, 1));
    assert_eq!(judged(&[(max_age, 2200), (hello_time, 1000), (forward_delay, 1200)]), (0, 0));
    assert_eq!(judged(&[(max_age, 2200), (hello_time, 1000), (forward_delay, 1199)]), (12, 1));
    // A binding with an earlier fault does not count: MaxAge stays 2000.
    assert_eq!(judged(&[(forward_delay, 1099), (max_age, 5000)]), (12, 1));
    assert_eq!(judged(&[(forward_delay, 1100), (max_age, 5000)]), (10, 2));
    assert_eq!(judged(&[(forward_delay, 1099), ("2.12.1", 600)]), (12, 1));
    assert_eq!(judged(&[(forward_delay, 1099), (forward_delay, 1500)]), (12, 1));
}

#[test]
fn priorities_of_both_editions() {
    let judged = |edition: u32, text: &str, number: i32| {
        let mut bridge = Bridge::fresh(4, edition, 1, &ADDRESS).unwrap();
        let status = set(&mut bridge, &[(text, integer(number))]);
        assert_eq!(bridge.edition, edition);
        assert_eq!(get(&bridge, text) == integer(number), status == (0, 0), "{text} {number}");
        status.0
    };
    let of_bridge = [0, 4096, 61440, 1, 4095, 4097, 61441, 65535, 65536, -4096];
    assert_eq!(of_bridge.map(|number| judged(1, "2.2.0", number)), [0, 0, 0, 0, 0, 0, 0, 0, 10, 10]);
    assert_eq!(of_bridge.map(|number| judged(2, "2.2.0", number)), [0, 0, 0, 10, 10, 10, 10, 10, 10, 10]);
    let of_port = [0, 16, 240, 1, 15, 17, 241, 255, 256, -16];
    assert_eq!(of_port.map(|number| judged(1, "2.15.1.2.4", number)), [0, 0, 0, 0, 0, 0, 0, 0, 10, 10]);
    assert_eq!(of_port.map(|number| judged(2, "2.15.1.2.4", number)), [0, 0, 0, 10, 10, 10, 10, 10, 10, 10]);
}
