//! Changes of a block's octets from outside, most of which make it no legal image.

use super::contents::timers;
use crate::model::bridge::{instances, Bridge};
use crate::model::image::*;
use crate::model::names::{type_of, Syntax, LARGEST_FRAMES, MOST_PAIRS, MOST_ROWS, SOURCE_ROUTING};
use crate::random::Random;

/// Octets to put at an offset of the block.
pub type Poke = (usize, Vec<u8>);

/// One change, or a few.
pub fn pokes(random: &mut Random, bridge: &Bridge, block: &[u8]) -> Vec<Poke> {
    let several = random.pick(&[1, 1, 1, 1, 2, 4]);
    let mut pokes: Vec<Poke> = (0..several).map(|_| poke(random, bridge, block)).collect();
    // Rows are changed more often than by their status alone, so the stored total is made to fit, or not.
    if random.chance(50) {
        pokes.push(fitting_total(block, &pokes));
    }
    pokes
}

/// The total of the rows that are active after some changes.
fn fitting_total(block: &[u8], pokes: &[Poke]) -> Poke {
    let mut after = block.to_vec();
    for (offset, octets) in pokes {
        after[*offset..offset + octets.len()].copy_from_slice(octets);
    }
    let rows = usize::from(after[VLAN_COUNT + 2]) * 256 + usize::from(after[VLAN_COUNT + 3]);
    let statuses = after[VLAN_ROWS..STATIC_ROWS].chunks_exact(VLAN_ROW).map(|row| row[2]);
    let active = statuses.take(rows).filter(|status| *status == 1).count();
    (VLAN_TOTAL, (active as u16).to_be_bytes().to_vec())
}

fn poke(random: &mut Random, bridge: &Bridge, block: &[u8]) -> Poke {
    let routing = bridge.device == SOURCE_ROUTING;
    match random.below(11) {
        0 => changed(random, block, 0..BLOCK),
        1 => anywhere_of_a_part(random, block),
        2 => head(random, bridge),
        3 => timer_cells(random, bridge),
        4 | 5 => cell(random, bridge),
        // Rows of the other device's tables, now and then.
        6..=9 if routing != random.chance(10) => pair_row(random, bridge, block),
        6 | 7 => vlan_row(random, bridge, block),
        8 | 9 => static_row(random, bridge, block),
        _ => (DELETES, random.octets(4)),
    }
}

/// One octet of a range with one bit flipped, or with any value.
fn changed(random: &mut Random, block: &[u8], range: std::ops::Range<usize>) -> Poke {
    let at = range.start + random.below(range.len());
    let octet = if random.chance(50) { block[at] ^ (1 << random.below(8)) } else { random.octet() };
    (at, vec![octet])
}

/// Where the parts of the layout end.
const PART_ENDS: [usize; 14] =
    [22, 24, 25, 26, PAIR_COUNT, CELLS_START, 816, 1072, 5940, VLAN_ROWS, STATIC_ROWS, PAIR_ROWS, ROWS_END, BLOCK];

/// The parts of the layout, the ends of each more often.
fn anywhere_of_a_part(random: &mut Random, block: &[u8]) -> Poke {
    let at = random.below(PART_ENDS.len());
    let part = if at == 0 { 0 } else { PART_ENDS[at - 1] }..PART_ENDS[at];
    match random.below(3) {
        0 => changed(random, block, part.start..part.start + 1),
        1 => changed(random, block, part.end - 1..part.end),
        _ => changed(random, block, part),
    }
}

fn number(value: u32) -> Vec<u8> {
    value.to_be_bytes().to_vec()
}

fn head(random: &mut Random, bridge: &Bridge) -> Poke {
    let (vlans, statics, pairs) = (bridge.vlans.len() as u32, bridge.statics.len() as u32, bridge.pairs.len() as u32);
    let near = |random: &mut Random, now: u32| {
        let values =
            [now.wrapping_sub(1), now + 1, 0, 64, 65, 256, 257, now + 0x100, now | 0x8000_0000, now + 0x0100_0000];
        number(random.pick(&values))
    };
    match random.below(8) {
        0 => (PORTS, near(random, bridge.ports)),
        1 => (VLAN_COUNT, near(random, vlans)),
        2 => (STATIC_COUNT, near(random, statics)),
        3 => (VLAN_TOTAL, near(random, bridge.active_vlans() as u32)[2..].to_vec()),
        4 => (EDITION, vec![random.pick(&[0, 1, 1, 2, 2, 3, 255])]),
        5 => (DEVICE, vec![random.pick(&[0, 1, 1, 2, 2, 3, 255])]),
        6 => (PAIR_COUNT, near(random, pairs)),
        _ => (ADDRESS + random.below(16), vec![random.octet()]),
    }
}

/// A cell at the ends of its range, one of a port above N, or one of the other device.
fn cell(random: &mut Random, bridge: &Bridge) -> Poke {
    let own: Vec<_> = CELLS.into_iter().filter(|(object, _)| type_of(*object).is_of(bridge.device)).collect();
    let (object, start) = if random.chance(10) { random.pick(&CELLS) } else { random.pick(&own) };
    let (low, high) = match type_of(object).syntax {
        Syntax::Integer(low, high) | Syntax::Unsigned(low, high) => (low, high),
        // Any of the frames, and the numbers beside it.
        _ => [random.pick(&LARGEST_FRAMES); 2].into(),
    };
    let ports = if random.chance(20) { 64 } else { bridge.ports };
    let place = random.below(instances(object, ports));
    let any = random.number() as u32;
    let stepped = random.within(low, high) & !0xF;
    let values = [low, high, low.wrapping_sub(1), high + 1, low | 0x8000_0000, low + 0x0001_0000, 0, stepped, any];
    (start + 4 * place, number(random.pick(&values)))
}

/// The three timers, which stand one after the other; of a device that has none, as a fresh bridge of the other has them.
fn timer_cells(random: &mut Random, bridge: &Bridge) -> Poke {
    let (timers, _) = timers(random, bridge.timers().unwrap_or([2000, 200, 1500]));
    (MAX_AGE, timers.into_iter().flat_map(number).collect())
}

fn row_octets(block: &[u8], start: usize, size: usize, place: usize) -> Vec<u8> {
    block[start + size * place..start + size * (place + 1)].to_vec()
}

/// A row of a table whose size stays as it is, and that has so many places: removed, repeated, exchanged with the next.
fn moved_row(random: &mut Random, block: &[u8], start: usize, size: usize, (rows, most): (usize, usize)) -> Poke {
    let place = random.below(rows + 1).min(most - 1);
    let other = (place + 1).min(most - 1);
    let (row, next) = (row_octets(block, start, size, place), row_octets(block, start, size, other));
    match random.below(4) {
        0 => (start + size * place, vec![0; size]),
        1 => (start + size * other, row),
        2 => (start + size * place, next),
        _ if place == other => (start + size * place, random.octets(size)),
        _ => (start + size * place, [next, row].concat()),
    }
}

/// The last row, the first free slot, or any row, of a table that has so many places.
fn some_place(random: &mut Random, rows: usize, most: usize) -> usize {
    let any = random.below(rows + 1);
    random.pick(&[rows.saturating_sub(1), rows, any, 0]).min(most - 1)
}

/// One row more or one less, where there is one.
fn other_count(random: &mut Random, rows: usize) -> Vec<u8> {
    number(rows as u32 + 1 - 2 * random.below(2) as u32 * u32::from(rows > 0))
}

fn vlan_row(random: &mut Random, bridge: &Bridge, block: &[u8]) -> Poke {
    let rows = bridge.vlans.len();
    let start = VLAN_ROWS + VLAN_ROW * some_place(random, rows, MOST_ROWS);
    let name_len = usize::from(block[start + 3].min(32));
    match random.below(10) {
        0 => moved_row(random, block, VLAN_ROWS, VLAN_ROW, (rows, MOST_ROWS)),
        1 => (start, random.pick(&[vec![0, 0], vec![0x0F, 0xFF], vec![0x0F, 0xFE], vec![0x80, 1], vec![0, 1]])),
        2 => (start + 2, vec![random.pick(&[0, 1, 2, 3, 4, 255])]),
        3 => (start + 3, vec![random.pick(&[0, 31, 32, 33, 255, name_len as u8 + 1])]),
        4 => (start + 4 + name_len.min(31), vec![random.octet()]),
        5 => (start + 4 + random.below(32), vec![random.octet()]),
        6 => {
            // One port added to Egress, Forbidden or Untagged: above N, shared, or right.
            let at = start + random.pick(&[36, 44, 52]) + random.below(8);
            (at, vec![block[at] | 1 << random.below(8)])
        }
        7 => {
            let egress = block[start + 36..start + 44].to_vec();
            (start + 44, egress)
        }
        8 => (VLAN_COUNT, other_count(random, rows)),
        _ => changed(random, block, start..start + VLAN_ROW),
    }
}

fn static_row(random: &mut Random, bridge: &Bridge, block: &[u8]) -> Poke {
    let rows = bridge.statics.len();
    let start = STATIC_ROWS + STATIC_ROW * some_place(random, rows, MOST_ROWS);
    let ports = bridge.ports as u8;
    match random.below(7) {
        0 => moved_row(random, block, STATIC_ROWS, STATIC_ROW, (rows, MOST_ROWS)),
        1 => (start + random.below(6), vec![random.within(0, 255) as u8]),
        2 => (start + 6, vec![random.pick(&[0, ports, ports + 1, 255])]),
        3 => (start + 7, vec![random.pick(&[0, 1, 2, 3, 4, 5, 6, 255])]),
        4 => (start + 8, random.octets(8)),
        5 => (STATIC_COUNT, other_count(random, rows)),
        _ => changed(random, block, start..start + STATIC_ROW),
    }
}

fn pair_row(random: &mut Random, bridge: &Bridge, block: &[u8]) -> Poke {
    let rows = bridge.pairs.len();
    let start = PAIR_ROWS + PAIR_ROW * some_place(random, rows, MOST_PAIRS);
    let (low, high, ports) = (block[start], block[start + 1], bridge.ports as u8);
    match random.below(8) {
        0 => moved_row(random, block, PAIR_ROWS, PAIR_ROW, (rows, MOST_PAIRS)),
        1 => (start, vec![random.pick(&[0, 1, high.wrapping_sub(1), high, high.wrapping_add(1), ports])]),
        2 => (start + 1, vec![random.pick(&[0, low, low.wrapping_add(1), ports, ports + 1, 64, 255])]),
        3 => (start + 2, vec![random.pick(&[0, 1, 14, 15, 16, 255])]),
        4 => (start + 3, vec![random.pick(&[0, 1, 2, 3, 255])]),
        5 => (PAIR_COUNT, other_count(random, rows)),
        // A row put at the end of the table, and the count with it left as it is.
        6 => (start, vec![low, high, 15, 2]),
        _ => changed(random, block, start..start + PAIR_ROW),
    }
}
