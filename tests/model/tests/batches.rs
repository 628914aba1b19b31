//! The model's batch checker: single clauses of E10 and its rulings, by hand.

mod common;

use common::{binding, fresh, integer, request, string};
use refbridge_model::batches::judge::check;
use refbridge_model::batches::Batch;
use refbridge_model::model::console::frame;
use refbridge_model::model::message::{Binding, Content, Kind};
use refbridge_model::Bridge;

fn set(bindings: &[(&str, Content)]) -> Vec<u8> {
    let bindings: Vec<Binding> = bindings.iter().map(|(text, content)| binding(text, content.clone())).collect();
    request(Kind::Set, bindings)
}

fn checked(bridge: &Bridge, messages: &[Vec<u8>]) -> Batch {
    check(&bridge.image(), &framed(messages))
}

fn framed(messages: &[Vec<u8>]) -> Vec<u8> {
    messages.iter().flat_map(|message| frame(message)).collect()
}

fn pair(first: u32, second: u32) -> Batch {
    Batch { first, second, ..Batch::default() }
}

fn refused(number: u32) -> Batch {
    Batch { number, ..Batch::default() }
}

fn wrong_message(number: u32, message: u32, offset: u32) -> Batch {
    Batch { number, message, offset, ..Batch::default() }
}

fn make_vlan(id: u32) -> Vec<u8> {
    set(&[(&format!("7.1.4.3.1.5.{id}"), integer(4))])
}

fn make_static(last: u32) -> Vec<u8> {
    set(&[(&format!("5.1.1.4.0.0.0.0.{}.{}.0", last / 256, last % 256), integer(3))])
}

/// VLANs up to this one stand.
fn with_vlans(count: u32) -> Bridge {
    let mut bridge = fresh(4);
    for id in 2..=count {
        assert_eq!(common::set(&mut bridge, &[(&format!("7.1.4.3.1.5.{id}"), integer(4))]), (0, 0));
    }
    bridge
}

#[test]
fn accepted() {
    let messages = [set(&[("2.2.0", integer(1))]), make_vlan(10), set(&[("4.2.0", integer(60))]), set(&[])];
    assert_eq!(checked(&fresh(4), &messages), Batch::default());
    assert_eq!(checked(&fresh(4), &[]), Batch::default());
    // Row p of two port tables are two rows, and a scalar without its 0 names nothing.
    let ports = [set(&[("2.15.1.2.1", integer(1))]), set(&[("7.1.4.5.1.1.1", integer(1))])];
    assert_eq!(checked(&fresh(4), &ports), Batch::default());
    assert_eq!(checked(&fresh(4), &[set(&[("2.2", integer(1))]), set(&[("2.2.0", integer(1))])]), Batch::default());
    // A row that one message names twice is no pair.
    let twice = set(&[("7.1.4.3.1.5.10", integer(4)), ("7.1.4.3.1.1.10", string(b"ten"))]);
    assert_eq!(checked(&fresh(4), &[twice]), Batch::default());
}

#[test]
fn the_first_pair() {
    let priority = set(&[("2.2.0", integer(1))]);
    let (age, delay) = (set(&[("2.12.0", integer(2000))]), set(&[("2.14.0", integer(1500))]));
    assert_eq!(checked(&fresh(4), &[priority.clone(), age, make_vlan(2), delay]), pair(2, 4));
    // By another column, by a read-only one, and by a binding at fault.
    let name = set(&[("7.1.4.3.1.1.10", string(b"ten"))]);
    assert_eq!(checked(&fresh(4), &[name.clone(), make_vlan(11), priority.clone(), make_vlan(10)]), pair(1, 4));
    assert_eq!(
        checked(&fresh(4), &[set(&[("2.15.1.1.3", integer(3))]), set(&[("2.15.1.4.3", integer(1))])]),
        pair(1, 2)
    );
    let faulted = set(&[("2.2.0", string(b"no number"))]);
    assert_eq!(checked(&fresh(4), &[faulted, priority.clone()]), pair(1, 2));
    // Least lower number, then least higher.
    let crossing = [name.clone(), priority.clone(), priority.clone(), name.clone(), name.clone()];
    assert_eq!(checked(&fresh(4), &crossing), pair(1, 4));
}

#[test]
fn the_first_table_short_of_room() {
    let full = with_vlans(255);
    let short = |table| Batch { table, ..Batch::default() };
    assert_eq!(checked(&full, &[make_vlan(300)]), Batch::default());
    assert_eq!(checked(&full, &[make_vlan(300), make_vlan(301)]), short(1));
    // Live rows need no more room, a row that is removed gives none, and an absent row that is only named needs some.
    assert_eq!(checked(&full, &[make_vlan(300), make_vlan(255)]), Batch::default());
    let removed = set(&[("7.1.4.3.1.5.255", integer(6))]);
    assert_eq!(checked(&full, &[make_vlan(300), removed.clone(), make_vlan(301)]), short(1));
    let named = set(&[("7.1.4.3.1.1.301", string(b""))]);
    assert_eq!(checked(&full, &[make_vlan(300), named]), short(1));
    // Pairs come first, and the VLAN table before the static one.
    assert_eq!(checked(&full, &[make_vlan(300), make_vlan(301), removed.clone(), removed]), pair(3, 4));
    let statics: Vec<Vec<u8>> = (0..16)
        .map(|at| {
            let name = |place: u32| format!("5.1.1.4.0.0.0.0.{}.{}.0", at, place);
            let bindings: Vec<(String, Content)> = (0..16).map(|place| (name(place), integer(3))).collect();
            set(&bindings.iter().map(|(name, content)| (name.as_str(), content.clone())).collect::<Vec<_>>())
        })
        .collect();
    assert_eq!(checked(&full, &statics), Batch::default());
    assert_eq!(checked(&full, &[statics.clone(), vec![make_static(999)]].concat()), short(2));
    let both = [statics, vec![make_static(999), make_vlan(300), make_vlan(301)]].concat();
    assert_eq!(checked(&full, &both), short(1));
}

#[test]
fn refusals_from_left_to_right() {
    let block = fresh(4).image();
    let (good, get) = (make_vlan(10), request(Kind::Get, vec![]));
    let check_octets = |octets: &[u8]| check(&block, octets);
    assert_eq!(check(&block[1..], &[0]), refused(3));
    assert_eq!(check_octets(&[0x7F, 0, 2, 0, 9]), refused(21));
    assert_eq!(check_octets(&[0x7F, 0]), refused(21));
    assert_eq!(check_octets(&[0x7F, 0, 3, 0, 0]), refused(21));
    assert_eq!(check_octets(&[0x7F, 0, 2, 5, 0xC1]), refused(22));
    // A wrong message before a wrong frame behind it; a get before what is wrong behind its kind.
    assert_eq!(check_octets(&[framed(&[good.clone(), get.clone()]), vec![9]].concat()), wrong_message(7, 2, 0));
    assert_eq!(check_octets(&framed(&[get[..5].to_vec()])), wrong_message(7, 1, 0));
    assert_eq!(check_octets(&framed(&[good.clone(), vec![]])), wrong_message(4, 2, 0));
    assert_eq!(check_octets(&framed(&[good[..20].to_vec()])), wrong_message(4, 1, 16));
    // Behind 64 frames; message 64 is read before.
    let many = vec![set(&[]); 64];
    assert_eq!(check_octets(&framed(&many)), Batch::default());
    assert_eq!(check_octets(&[framed(&many), vec![0]].concat()), refused(23));
    assert_eq!(check_octets(&[framed(&many[1..]), frame(&get), vec![0]].concat()), wrong_message(7, 64, 0));
}
