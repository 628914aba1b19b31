//! Short forms for the model's tests. Names are given as text and stand under 1.3.6.1.2.1.17.
#![allow(dead_code)]

use refbridge_model::model::message::{write_request, Binding, Content, Kind, Request};
use refbridge_model::model::names::BRIDGE;
use refbridge_model::Bridge;

pub const ROOM: usize = 1472;
pub const ADDRESS: [u8; 6] = [0, 0x11, 0x22, 0x33, 0x44, 0x55];

/// Of edition 1 and device 1.
pub fn fresh(ports: u32) -> Bridge {
    Bridge::fresh(ports, 1, 1, &ADDRESS).unwrap()
}

/// A source-routing bridge, device 2.
pub fn routing(ports: u32) -> Bridge {
    Bridge::fresh(ports, 1, 2, &ADDRESS).unwrap()
}

pub fn name(text: &str) -> Vec<u32> {
    let sub_ids = text.split('.').filter(|part| !part.is_empty()).map(|part| part.parse::<u32>().unwrap());
    BRIDGE.into_iter().chain(sub_ids).collect()
}

pub fn integer(number: i32) -> Content {
    Content::Integer(number)
}

pub fn string(octets: &[u8]) -> Content {
    Content::String(octets.to_vec())
}

pub fn binding(text: &str, content: Content) -> Binding {
    Binding { name: name(text), content }
}

pub fn request(kind: Kind, bindings: Vec<Binding>) -> Vec<u8> {
    write_request(&Request { kind, id: 7, bindings })
}

/// The content that a get of one name answers.
pub fn get(bridge: &Bridge, text: &str) -> Content {
    bridge.get_binding(&name(text)).content
}

/// The name under 17 that a get-next of one name answers; none at the end of the view.
pub fn next(bridge: &Bridge, text: &str) -> Option<String> {
    let answered = bridge.next_binding(&name(text));
    let sub_ids: Vec<String> = answered.name.iter().skip(BRIDGE.len()).map(u32::to_string).collect();
    (answered.content != Content::EndOfMibView).then(|| sub_ids.join("."))
}

/// Plays a set message and gives status and index of its answer.
pub fn set(bridge: &mut Bridge, bindings: &[(&str, Content)]) -> (u8, u8) {
    let bindings: Vec<Binding> = bindings.iter().map(|(text, content)| binding(text, content.clone())).collect();
    let octets = request(Kind::Set, bindings);
    let before = bridge.clone();
    let answer = bridge.answer(&octets, ROOM).unwrap();
    let status = (answer[14], answer[15]);
    if status != (0, 0) {
        assert_eq!(*bridge, before, "a set at fault changes nothing");
    }
    assert_eq!(answer[16..], octets[16..], "bindings are echoed either way");
    status
}

/// Octets written as hexadecimal digits, with spaces anywhere.
pub fn hex(text: &str) -> Vec<u8> {
    let digits: Vec<u8> = text.bytes().filter(|digit| !digit.is_ascii_whitespace()).collect();
    let pair = |pair: &[u8]| u8::from_str_radix(std::str::from_utf8(pair).unwrap(), 16).unwrap();
    digits.chunks(2).map(pair).collect()
}
