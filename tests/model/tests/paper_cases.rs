//! The twelve cases of the scope paper, at N = 4.

mod common;

use common::*;
use refbridge_model::model::message::Content;
use refbridge_model::model::timers::{to_256ths, to_hundredths, TIMER_RANGE};

#[test]
fn case_1_octet_for_octet() {
    let get = hex("01 0001 00 02 0004 00000007 03 0002 0000 10 002E 11 0028 00000001 00000003 00000006 00000001 \
                   00000002 00000001 00000011 00000001 00000002 00000000 20 0000");
    let answer = hex("01 0001 02 02 0004 00000007 03 0002 0000 10 0032 11 0028 00000001 00000003 00000006 00000001 \
                      00000002 00000001 00000011 00000001 00000002 00000000 21 0004 00000004");
    assert_eq!((get.len(), answer.len()), (65, 69));
    assert_eq!(fresh(4).answer(&get, ROOM), Ok(answer));
}

#[test]
fn case_2_next_of_a_scalar() {
    assert_eq!(next(&fresh(4), "1.2").as_deref(), Some("1.2.0"));
    assert_eq!(next(&fresh(4), "1.2.0").as_deref(), Some("1.3.0"));
}

#[test]
fn case_3_end_of_the_view() {
    assert_eq!(next(&fresh(4), "7.1.4.5.1.3.3").as_deref(), Some("7.1.4.5.1.3.4"));
    assert_eq!(next(&fresh(4), "7.1.4.5.1.3.4"), None);
}

#[test]
fn case_4_no_such_instance_and_object() {
    assert_eq!(get(&fresh(4), "1.2.1"), Content::NoSuchInstance);
    assert_eq!(get(&fresh(4), "9"), Content::NoSuchObject);
}

#[test]
fn case_5_fresh_num_vlans() {
    assert_eq!(get(&fresh(4), "7.1.1.4.0"), Content::Unsigned(1));
}

#[test]
fn case_6_a_column_before_the_status_that_makes_its_row() {
    let mut bridge = fresh(4);
    let made = [("7.1.4.3.1.2.10", string(&[0xA0])), ("7.1.4.3.1.5.10", integer(4))];
    assert_eq!(set(&mut bridge, &made), (0, 0));
    assert_eq!(bridge.vlans[&10].egress, 1 << 63 | 1 << 61);
    assert_eq!(get(&bridge, "7.1.4.3.1.2.10"), string(&[0xA0]));
}

#[test]
fn case_7_a_column_of_an_absent_row() {
    assert_eq!(set(&mut fresh(4), &[("7.1.4.3.1.2.10", string(&[0xA0]))]), (18, 1));
}

#[test]
fn case_8_egress_and_forbidden_exchanged() {
    let mut bridge = fresh(4);
    let start = [("7.1.4.3.1.2.1", string(&[0x80])), ("7.1.4.3.1.3.1", string(&[0x40]))];
    let exchanged = [("7.1.4.3.1.2.1", string(&[0x40])), ("7.1.4.3.1.3.1", string(&[0x80]))];
    assert_eq!(set(&mut bridge, &start), (0, 0));
    assert_eq!(set(&mut bridge, &exchanged), (0, 0));
    assert_eq!((get(&bridge, "7.1.4.3.1.2.1"), get(&bridge, "7.1.4.3.1.3.1")), (string(&[0x40]), string(&[0x80])));
}

#[test]
fn case_9_stp_priority() {
    let mut bridge = fresh(4);
    assert_eq!(set(&mut bridge, &[("2.2.0", integer(65535))]), (0, 0));
    assert_eq!(get(&bridge, "2.2.0"), integer(65535));
    assert_eq!(set(&mut bridge, &[("2.2.0", integer(65536))]), (10, 1));
}

#[test]
fn case_10_an_absent_row_removed() {
    let mut bridge = fresh(4);
    assert_eq!(set(&mut bridge, &[("7.1.4.3.1.5.10", integer(6))]), (0, 0));
    assert_eq!(bridge, fresh(4));
}

#[test]
fn case_11_a_static_row_removed_and_written() {
    let mut bridge = fresh(4);
    assert_eq!(set(&mut bridge, &[("5.1.1.4.0.1.2.3.4.5.0", integer(3))]), (0, 0));
    let both = [("5.1.1.4.0.1.2.3.4.5.0", integer(2)), ("5.1.1.3.0.1.2.3.4.5.0", string(&[0x80]))];
    assert_eq!(set(&mut bridge, &both), (12, 2));
}

#[test]
fn case_12_timers() {
    assert_eq!(to_256ths(2000), Ok(5120));
    assert_eq!((to_256ths(33), to_hundredths(84)), (Ok(84), Ok(33)));
    assert_eq!(to_256ths(25600), Err(TIMER_RANGE));
}

#[test]
fn timers_out_and_back_return_the_number() {
    for hundredths in 0..=25599 {
        assert_eq!(to_256ths(hundredths).and_then(to_hundredths), Ok(hundredths));
    }
    assert_eq!((to_hundredths(0), to_hundredths(65535), to_hundredths(65536)), (Ok(0), Ok(25600), Err(TIMER_RANGE)));
    assert_eq!((to_256ths(u32::MAX), to_hundredths(u32::MAX)), (Err(TIMER_RANGE), Err(TIMER_RANGE)));
}
