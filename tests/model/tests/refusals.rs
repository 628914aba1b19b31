//! Each numbered return, and which comes first.

mod common;

use common::*;
use refbridge_model::model::calls;
use refbridge_model::model::message::{Content, Kind, Refusal};
use refbridge_model::Bridge;

const HEAD: &str = "01 0001 03 02 0004 00000007 03 0002 0000";
const BINDING: &str = "10 0019 11 0008 00000001 00000003 22 000B 3132333435363738393031";

/// A refusal's number and offset.
fn numbers(Refusal { number, offset }: Refusal) -> (u32, u32) {
    (number, offset)
}

fn refused(text: &str) -> (u32, u32) {
    numbers(fresh(4).answer(&hex(text), ROOM).unwrap_err())
}

/// The head ends at 16, where a binding's tag stands; its name's tag stands at 19.
fn after_head(text: &str) -> (u32, u32) {
    refused(&format!("{HEAD} {text}"))
}

#[test]
fn room_then_request_then_block() {
    let long = vec![0; 1473];
    let mut block = vec![0; 32768];
    let mut call = |request: &[u8], room: usize| calls::answer(&mut block, request, &mut vec![0; room]);
    assert_eq!(call(&long, 1471), (1, 0, 0));
    assert_eq!(call(&long, 1472), (2, 0, 0));
    assert_eq!(call(&long[..1472], 1472), (3, 0, 0));
    assert_eq!(call(&[], 1472), (3, 0, 0));
    let mut short = fresh(4).image()[..32767].to_vec();
    assert_eq!(calls::answer(&mut short, &hex(HEAD), &mut [0; 1472]), (3, 0, 0));
}

#[test]
fn missing_and_cut_fields() {
    assert_eq!(refused(""), (4, 0));
    assert_eq!(refused("01 00"), (4, 0));
    assert_eq!(refused("01 0001"), (4, 0));
    assert_eq!(refused("01 0001 03"), (4, 4));
    assert_eq!(refused("01 0001 03 02 0004 000000"), (4, 4));
    assert_eq!(after_head("10 00"), (4, 16));
    assert_eq!(after_head("10 0001"), (4, 16));
    assert_eq!(after_head("10 0000"), (4, 19));
    assert_eq!(after_head("10 0003 11 0008"), (4, 19));
    assert_eq!(after_head("10 000B 11 0008 00000001 00000003"), (4, 30));
    assert_eq!(after_head("10 000D 11 0008 00000001 00000003 21 00"), (4, 30));
}

#[test]
fn cut_comes_before_the_tag_and_the_tag_before_the_length() {
    assert_eq!(refused("09 0001"), (4, 0));
    assert_eq!(refused("09 0000"), (5, 0));
    assert_eq!(refused("01 0000"), (6, 0));
    assert_eq!(refused("01 0002 0300"), (6, 0));
    assert_eq!(refused("01 0001 03 01 0000"), (5, 4));
    assert_eq!(after_head("11 0000"), (5, 16));
    assert_eq!(after_head("11 0001"), (4, 16));
}

#[test]
fn kind_status_and_index() {
    assert_eq!(refused("01 0001 02"), (7, 0));
    assert_eq!(refused("01 0001 04 FF"), (7, 0));
    assert_eq!(refused("01 0001 03 02 0004 00000007 03 0002 0100"), (7, 11));
    assert_eq!(refused("01 0001 03 02 0004 00000007 03 0002 0001 10"), (7, 11));
    assert_eq!(refused("01 0001 03 02 0004 00000007 03 0001 01"), (6, 11));
}

#[test]
fn names_have_2_to_128_sub_ids() {
    let with_name = |octets: usize| {
        let name = format!("11 {octets:04X} {} 22 0000", "00".repeat(octets));
        fresh(4).answer(&hex(&format!("{HEAD} 10 {:04X} {name}", octets + 6)), ROOM).err().map(numbers)
    };
    assert_eq!([0, 4, 7, 9, 10, 11, 516].map(with_name), [Some((6, 19)); 7]);
    assert_eq!([8, 12, 512].map(with_name), [None; 3]);
}

#[test]
fn contents() {
    let content = |kind: &str, text: &str| {
        let head = HEAD.replacen("01 0001 03", &format!("01 0001 {kind}"), 1);
        let length = 11 + hex(text).len();
        let octets = hex(&format!("{head} 10 {length:04X} 11 0008 00000001 00000003 {text}"));
        fresh(4).answer(&octets, ROOM).err().map(numbers)
    };
    // The content's tag stands at 30, and a number's contents end at 37.
    assert_eq!(content("00", "20 0000"), None);
    assert_eq!(content("01", "20 0000"), None);
    assert_eq!(content("00", "20 0001 00"), Some((6, 30)));
    assert_eq!(content("00", "21 0004 00000000"), Some((5, 30)));
    assert_eq!(content("03", "20 0000"), Some((5, 30)));
    assert_eq!(["30 0000", "31 0000", "32 0000", "25 0000"].map(|text| content("03", text)), [Some((5, 30)); 4]);
    assert_eq!(["21 0003 000000", "23 0005 0000000000", "24 0000"].map(|text| content("03", text)), [Some((6, 30)); 3]);
    assert_eq!(content("03", &format!("22 00FF {}", "AA".repeat(255))), None);
    assert_eq!(content("03", &format!("22 0100 {}", "AA".repeat(256))), Some((6, 30)));
    assert_eq!(content("03", "21 0004 00000000 00"), Some((6, 37)));
    assert_eq!(content("03", "21 0004 00000000 20 0000"), Some((6, 37)));
}

#[test]
fn places_in_a_second_binding() {
    // The first binding has 28 octets: the second stands at 44, its name at 47, its content at 58.
    let after_first = |text: &str| after_head(&format!("{BINDING} {text}"));
    assert_eq!(after_first("10 0000"), (4, 47));
    assert_eq!(after_first("10 000B 11 0008 00000001 00000003"), (4, 58));
    assert_eq!(after_first("10 000B 11 0008 00000001 00000003 22 0000"), (4, 58));
    assert_eq!(after_first("10 000E 11 0009 00000001 00000003 22 0000"), (6, 47));
    assert_eq!(after_first("10 0011 11 0008 00000001 00000003 21 0004 000000"), (4, 58));
    assert_eq!(after_first("10 000F 11 0008 00000001 00000003 22 0000 00"), (6, 61));
    assert_eq!(after_first("10 000E 12 0008 00000001 00000003 22 0000"), (5, 47));
}

#[test]
fn a_17th_binding() {
    // A binding has 28 octets: the 17th stands at 16 + 16 * 28.
    let sixteen = BINDING.repeat(16);
    let after_sixteen = |text: &str| after_head(&format!("{sixteen} {text}"));
    assert!(fresh(4).answer(&hex(&format!("{HEAD} {sixteen}")), ROOM).is_ok());
    assert_eq!(after_sixteen(BINDING), (8, 464));
    assert_eq!(after_sixteen("10 FFFF"), (8, 464));
    assert_eq!(after_sixteen("10 FF"), (4, 464));
    assert_eq!(after_sixteen("11 0001"), (4, 464));
    assert_eq!(after_sixteen("11 0000"), (5, 464));
    assert_eq!(after_head(&format!("{} 10 FFFF", BINDING.repeat(15))), (4, 436));
}

#[test]
fn a_refusal_keeps_block_and_room() {
    let (mut block, mut room) = (fresh(4).image(), vec![0xA5; 1500]);
    assert_eq!(calls::answer(&mut block, &hex("01 0001 00"), &mut room), (4, 0, 4));
    assert_eq!((block, room), (fresh(4).image(), vec![0xA5; 1500]));
}

#[test]
fn octets_past_the_count_are_kept() {
    let (mut block, mut room) = (fresh(4).image(), vec![0xA5; 1500]);
    assert_eq!(calls::answer(&mut block, &hex(HEAD), &mut room), (0, 16, 0));
    assert_eq!(room[..16], hex(&HEAD.replacen("01 0001 03", "01 0001 02", 1)));
    assert!(room[16..].iter().all(|octet| *octet == 0xA5));
}

#[test]
fn set_up() {
    let mut block = vec![0x5A; 32768];
    assert_eq!(calls::set_up(&mut block, 0, 1, 1, &ADDRESS), (9, 0, 0));
    assert_eq!(calls::set_up(&mut block, 65, 1, 1, &ADDRESS), (9, 0, 0));
    assert_eq!(calls::set_up(&mut block, 4, 1, 1, &ADDRESS[..5]), (9, 0, 0));
    assert_eq!(calls::set_up(&mut block[1..], 4, 1, 1, &ADDRESS), (9, 0, 0));
    for edition in [0, 3, 257, u32::MAX] {
        assert_eq!(calls::set_up(&mut block, 4, edition, 1, &ADDRESS), (9, 0, 0));
    }
    assert!(block.iter().all(|octet| *octet == 0x5A));
    assert_eq!(calls::set_up(&mut block, 4, 1, 1, &ADDRESS), (0, 0, 0));
    assert_eq!(block, fresh(4).image());
    assert_eq!(calls::set_up(&mut block, 4, 2, 1, &ADDRESS), (0, 0, 0));
    assert_eq!(block, Bridge::fresh(4, 2, 1, &ADDRESS).unwrap().image());
}

#[test]
fn an_answer_over_1472_octets_is_too_big() {
    let mut bridge = fresh(4);
    let rows: Vec<(String, Content)> = (10..26).map(|id| (format!("7.1.4.3.1.5.{id}"), integer(4))).collect();
    let rows: Vec<(&str, Content)> = rows.iter().map(|(text, content)| (text.as_str(), content.clone())).collect();
    assert_eq!(set(&mut bridge, &rows), (0, 0));
    for id in 10..26 {
        bridge.vlans.get_mut(&id).unwrap().name = vec![b'x'; 27];
    }
    // 16 octets, and for each binding 65 and its name: 16 + 16 * 91 = 1472 with 26 octets.
    let names = || (10..26).map(|id| binding(&format!("7.1.4.3.1.1.{id}"), Content::Null)).collect();
    let octets = request(Kind::Get, names());
    assert_eq!(bridge.clone().answer(&octets, ROOM), Ok(hex("01 0001 02 02 0004 00000007 03 0002 0100")));
    for id in 10..26 {
        bridge.vlans.get_mut(&id).unwrap().name.truncate(26);
    }
    assert_eq!(bridge.clone().answer(&octets, ROOM).unwrap().len(), 1472);
    bridge.vlans.get_mut(&13).unwrap().name.push(b'x');
    assert_eq!(bridge.answer(&octets, ROOM).unwrap().len(), 16);
}
