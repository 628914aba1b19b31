//! What the compared pairs had, so that a run that never met something is seen.

use super::compare::{is_port_set, Walks, ENTRY};
use super::read::read;
use std::collections::BTreeMap;

/// What must have been met at least once: the numbers a call returns, the kinds of entry, and cases by name.
const REQUIRED: [&str; 27] = [
    "answered",
    "refused with 4, reference",
    "refused with 4, device",
    "refused with 5, reference",
    "refused with 5, device",
    "refused with 6, reference",
    "refused with 6, device",
    "refused with 24, reference",
    "refused with 24, device",
    "refused with 25, reference",
    "offset over 0",
    "both walks at fault",
    "list one octet short",
    "list of 0 octets for 0 entries",
    "list with octets left",
    "reference only",
    "device only",
    "differing",
    "differing port sets",
    "differing, not port sets, under a ports column",
    "port sets of unequal octets with equal members",
    "first port over 8",
    "tail of the reference",
    "tail of the device",
    "no tail",
    "walk of no octets",
    "equal walks that are not empty",
];

#[derive(Default)]
pub struct Met {
    counts: BTreeMap<&'static str, u64>,
}

impl Met {
    fn note(&mut self, what: &'static str, is: bool) {
        *self.counts.entry(what).or_default() += u64::from(is);
    }

    /// Notes a pair by what the model says of it: its result, and the list afterwards.
    pub fn note_pair(&mut self, reference: &[u8], device: &[u8], list: &[u8], walks: &Walks) {
        let side = ["reference", "device"][walks.side as usize - 1];
        let name = format!("refused with {}, {side}", walks.number);
        if let Some(known) = REQUIRED.iter().find(|known| **known == name) {
            self.note(known, true);
        }
        self.note("offset over 0", walks.offset > 0);
        self.note("both walks at fault", read(reference).is_err() && read(device).is_err());
        self.note("walk of no octets", reference.is_empty() || device.is_empty());
        if walks.number != 0 {
            return;
        }
        self.note("answered", true);
        self.note("tail of the reference", walks.side == 1 && walks.tail_len > 0);
        self.note("tail of the device", walks.side == 2);
        self.note("no tail", walks.tail_len == 0);
        self.note("equal walks that are not empty", reference == device && !reference.is_empty());
        let entries = (walks.reference_only + walks.switch_only + walks.differing) as usize;
        self.note("list of 0 octets for 0 entries", list.is_empty());
        self.note("list with octets left", list.len() > ENTRY * entries);
        for entry in list[..ENTRY * entries].chunks_exact(ENTRY) {
            self.note_entry(reference, entry);
        }
        self.note_unlisted(reference, device);
    }

    /// The list was refused though one octet more would have done.
    pub fn note_short(&mut self) {
        self.note("list one octet short", true);
    }

    fn note_entry(&mut self, reference: &[u8], entry: &[u8]) {
        self.note("reference only", entry[0] == 1);
        self.note("device only", entry[0] == 2);
        self.note("differing", entry[0] == 3);
        self.note("differing port sets", entry[3] > 0);
        self.note("first port over 8", entry[3] > 8);
        if entry[0] == 3 && entry[3] == 0 {
            let at = u64::from_be_bytes(entry[4..12].try_into().unwrap()) as usize;
            let ours = read(reference).unwrap().into_iter().find(|instance| instance.at == at).unwrap();
            self.note("differing, not port sets, under a ports column", is_port_set(&ours));
        }
    }

    fn note_unlisted(&mut self, reference: &[u8], device: &[u8]) {
        let (ours, theirs) = (read(reference).unwrap(), read(device).unwrap());
        let padded = ours.iter().any(|a| {
            theirs.iter().any(|b| {
                let (longer, shorter) =
                    if a.octets.len() > b.octets.len() { (&a.octets, &b.octets) } else { (&b.octets, &a.octets) };
                a.name == b.name
                    && is_port_set(a)
                    && is_port_set(b)
                    && longer.len() > shorter.len()
                    && longer.starts_with(shorter)
                    && longer[shorter.len()..].iter().all(|octet| *octet == 0)
            })
        });
        self.note("port sets of unequal octets with equal members", padded);
    }

    /// Prints all counts and returns what was never met.
    pub fn report(&self) -> Vec<&'static str> {
        for (what, count) in &self.counts {
            println!("{count:>9}  {what}");
        }
        REQUIRED.iter().filter(|what| self.counts.get(*what).is_none_or(|count| *count == 0)).copied().collect()
    }
}
