//! A reset: what goes, what stays, what is refused, and the room that it gives.

mod common;

use common::*;
use refbridge_model::model::calls;
use refbridge_model::Bridge;

/// A static row of this address and of this status is made, or changed.
fn set_row(bridge: &mut Bridge, row: u32, status: i32) -> (u8, u8) {
    let name = format!("5.1.1.4.2.0.0.0.{}.{}.0", row / 256, row % 256);
    set(bridge, &[(&name, integer(status))])
}

fn rows(bridge: &Bridge) -> Vec<(u32, u32)> {
    bridge.statics.iter().map(|(index, row)| (index[4] * 256 + index[5], row.status)).collect()
}

#[test]
fn rows_of_status_4_go_and_all_else_stays() {
    let mut bridge = fresh(4);
    for (row, status) in [(1, 4), (2, 3), (3, 4), (4, 4), (5, 5), (6, 4)] {
        assert_eq!(set_row(&mut bridge, row, status), (0, 0));
    }
    assert_eq!(set(&mut bridge, &[("7.1.4.3.1.5.1", integer(6)), ("2.2.0", integer(4))]), (0, 0));
    let mut expected = bridge.clone();
    expected.statics.retain(|index, _| matches!(index[5], 2 | 5));
    bridge.reset();
    assert_eq!(rows(&bridge), [(2, 3), (5, 5)]);
    assert_eq!(bridge, expected);
    bridge.reset();
    assert_eq!(bridge, expected);
}

#[test]
fn a_reset_gives_room() {
    let mut bridge = fresh(4);
    for row in 0..256 {
        assert_eq!(set_row(&mut bridge, row, if row == 100 { 4 } else { 3 }), (0, 0));
    }
    assert_eq!(set_row(&mut bridge, 256, 3), (13, 1));
    bridge.reset();
    assert_eq!(set_row(&mut bridge, 256, 3), (0, 0));
    assert_eq!(set_row(&mut bridge, 257, 3), (13, 1));
}

#[test]
fn only_a_legal_block_of_its_length_is_reset() {
    let mut bridge = fresh(4);
    set_row(&mut bridge, 1, 4);
    let block = bridge.image();
    let refused = |mut given: Vec<u8>| {
        let before = given.clone();
        assert_eq!(calls::reset(&mut given), (3, 0, 0));
        assert_eq!(given, before);
    };
    refused(block[..32767].to_vec());
    refused([&block[..], &[0]].concat());
    refused(Vec::new());
    refused([&block[..32767], &[1]].concat());
    let mut given = block.clone();
    assert_eq!(calls::reset(&mut given), (0, 0, 0));
    assert_eq!(given, fresh(4).image());
}
