//! SNMPv2c datagrams as change request E2 says, with BER of its own: an ordinary implementation, written from the papers.

pub mod generate;
pub mod read;
pub mod write;

/// The most octets of a datagram and of a message.
pub const LONGEST: usize = 1472;

/// The most bindings of a message.
pub const MOST_BINDINGS: usize = 16;

/// Tags of the basic encoding rules, as SNMP uses them.
pub mod tag {
    pub const INTEGER: u8 = 0x02;
    pub const STRING: u8 = 0x04;
    pub const NULL: u8 = 0x05;
    pub const NAME: u8 = 0x06;
    pub const SEQUENCE: u8 = 0x30;
    pub const COUNTER: u8 = 0x41;
    pub const UNSIGNED: u8 = 0x42;
    pub const NO_SUCH_OBJECT: u8 = 0x80;
    pub const NO_SUCH_INSTANCE: u8 = 0x81;
    pub const END_OF_MIB_VIEW: u8 = 0x82;
    /// The kind of the message form is what a PDU's tag has above this.
    pub const PDU: u8 = 0xA0;
}

/// Kinds of messages, in the message form.
pub const GET: u8 = 0;
pub const GET_NEXT: u8 = 1;
pub const RESPONSE: u8 = 2;
pub const SET: u8 = 3;

/// Tags of contents: of BER, and of the message form.
pub const CONTENTS: [(u8, u8); 8] = [
    (tag::NULL, 0x20),
    (tag::INTEGER, 0x21),
    (tag::STRING, 0x22),
    (tag::UNSIGNED, 0x23),
    (tag::COUNTER, 0x24),
    (tag::NO_SUCH_OBJECT, 0x30),
    (tag::NO_SUCH_INSTANCE, 0x31),
    (tag::END_OF_MIB_VIEW, 0x32),
];

/// A field of the message form.
pub fn field(tag: u8, contents: &[u8]) -> Vec<u8> {
    let mut octets = vec![tag];
    octets.extend((contents.len() as u16).to_be_bytes());
    octets.extend(contents);
    octets
}
