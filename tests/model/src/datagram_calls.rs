//! The library's calls for datagrams, as a table of functions.

use crate::archive;

/// What a call returns; what it has not is 0.
#[derive(Debug, Default, PartialEq)]
pub struct Given {
    pub number: u32,
    pub count: u32,
    /// Where the community stands in the datagram, and its length.
    pub community: (u32, u32),
    pub offset: u32,
}

#[derive(Clone, Copy)]
pub struct Calls {
    pub from_datagram: fn(&[u8], &mut [u8]) -> Given,
    pub from_captured: fn(&[u8], &mut [u8]) -> Given,
    pub to_datagram: fn(&[u8], &[u8], &mut [u8]) -> Given,
}

/// None where this program was built without the library.
pub fn linked() -> Option<Calls> {
    archive::linked(Calls {
        from_datagram: archive::from_datagram,
        from_captured: archive::from_captured,
        to_datagram: archive::to_datagram,
    })
}
