//! One request answered: get, get-next, set.

use super::bridge::Bridge;
use super::message::{read, write_answer, Binding, Content, Kind, Refusal, LONGEST};
use super::names::{split_of, BRIDGE, TABLE};
use std::cmp::Ordering;

pub const ROOM_SHORT: Refusal = Refusal::of(1);
pub const REQUEST_LONG: Refusal = Refusal::of(2);

impl Bridge {
    /// The answer's octets, or the refusal (3 cannot arise here: a bridge is a legal block's content).
    pub fn answer(&mut self, request: &[u8], room_len: usize) -> Result<Vec<u8>, Refusal> {
        refuse_sizes(request.len(), room_len)?;
        let request = read(request)?;
        let bindings = request.bindings;
        Ok(match request.kind {
            Kind::Get => write_answer(request.id, 0, 0, &self.each(&bindings, Bridge::get_binding)),
            Kind::GetNext => write_answer(request.id, 0, 0, &self.each(&bindings, Bridge::next_binding)),
            Kind::Set => {
                let (status, index) = self.set(&bindings);
                write_answer(request.id, status, index, &bindings)
            }
        })
    }

    fn each(&self, bindings: &[Binding], answered: fn(&Bridge, &[u32]) -> Binding) -> Vec<Binding> {
        bindings.iter().map(|binding| answered(self, &binding.name)).collect()
    }

    pub fn get_binding(&self, name: &[u32]) -> Binding {
        let content = match split_of(self.device, name) {
            None => Content::NoSuchObject,
            Some((found, index)) => self.get(found.object, index).unwrap_or(Content::NoSuchInstance),
        };
        Binding { name: name.to_vec(), content }
    }

    pub fn next_binding(&self, name: &[u32]) -> Binding {
        self.next_instance(name).unwrap_or_else(|| Binding { name: name.to_vec(), content: Content::EndOfMibView })
    }

    /// The least existing instance above the name.
    fn next_instance(&self, name: &[u32]) -> Option<Binding> {
        let below = match name.strip_prefix(&BRIDGE) {
            Some(below) => below,
            None if name < &BRIDGE[..] => &[],
            None => return None,
        };
        // Object types before the last one that is not above the name have all their instances below it.
        let from = TABLE.partition_point(|entry| entry.prefix <= below).saturating_sub(1);
        TABLE[from..].iter().filter(|entry| entry.is_of(self.device)).find_map(|entry| {
            let index = match below.strip_prefix(entry.prefix) {
                Some(rest) => self.next_index(entry.shape, rest)?,
                None if entry.prefix.cmp(below) == Ordering::Greater => self.next_index(entry.shape, &[])?,
                None => return None,
            };
            let content = self.get(entry.object, &index)?;
            Some(Binding { name: entry.name(&index), content })
        })
    }
}

/// Refusals 1 and 2, which come before the block is looked at.
pub fn refuse_sizes(request_len: usize, room_len: usize) -> Result<(), Refusal> {
    if room_len < LONGEST {
        return Err(ROOM_SHORT);
    }
    if request_len > LONGEST {
        return Err(REQUEST_LONG);
    }
    Ok(())
}
