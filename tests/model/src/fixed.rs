//! Set-up with right and wrong arguments, and timers over all numbers that matter.

use crate::library::{Library, Returned};
use crate::model::calls;
use crate::model::image::BLOCK;
use crate::player::{same_octets, same_return, Difference};
use crate::random::Random;
use crate::tally::Tally;

/// Every number of ports, in both editions and devices, and other editions and devices, with block and address of the right
/// length and of wrong ones; blocks are poisoned.
pub fn compare_set_up(library: Library, random: &mut Random, tally: &mut Tally) -> Result<(), Difference> {
    let ports = (0..=70).chain([127, 128, 255, 256, 257, 260, 320, 65536, 65540, 0x8000_0004, u32::MAX]);
    for ports in ports {
        for (block_len, address_len) in
            [(BLOCK, 6), (BLOCK - 1, 6), (BLOCK + 1, 6), (0, 6), (BLOCK, 5), (BLOCK, 7), (BLOCK, 0)]
        {
            for (edition, device) in [(1, 1), (1, 2), (2, 1), (2, 2)] {
                set_up(library, random, tally, (block_len, ports, edition, device, address_len))?;
            }
        }
    }
    for number in (0..=20).chain([255, 256, 257, 258, 65537, 0x0100_0001, 0x8000_0001, u32::MAX]) {
        for known in [1, 2] {
            set_up(library, random, tally, (BLOCK, 4, number, known, 6))?;
            set_up(library, random, tally, (BLOCK, 4, known, number, 6))?;
        }
    }
    for _ in 0..100 {
        let (block_len, address_len) = (random.below(2 * BLOCK), random.below(300));
        let (ports, edition, device) = (random.within(0, 65), random.within(0, 3), random.within(0, 3));
        set_up(library, random, tally, (BLOCK, ports, edition, device, 6))?;
        set_up(library, random, tally, (block_len, ports, edition, device, 6))?;
        set_up(library, random, tally, (BLOCK, ports, edition, device, address_len))?;
        set_up(library, random, tally, (block_len, ports, edition, device, address_len))?;
    }
    Ok(())
}

fn set_up(
    library: Library,
    random: &mut Random,
    tally: &mut Tally,
    (block_len, ports, edition, device, address_len): (usize, u32, u32, u32, usize),
) -> Result<(), Difference> {
    let address = random.octets(address_len).into_boxed_slice();
    let mut expected = random.poison(block_len);
    let mut block = expected.clone().into_boxed_slice();
    let said = calls::set_up(&mut expected, ports, edition, device, &address);
    let returned = (library.set_up)(&mut block, ports, edition, device, &address);
    note(tally, said, "set-up accepted, by ten times the device and the edition", 10 * device.min(9) + edition.min(9));
    let what = format!(
        "set-up of {block_len} octets, {ports} ports, edition {edition}, device {device}, address of {address_len} octets"
    );
    same_return(&what, returned, said)?;
    same_octets(&what, &block, &expected)
}

/// All of 0..70000, and numbers whose products would wrap.
pub fn compare_timers(library: Library, random: &mut Random, tally: &mut Tally) -> Result<(), Difference> {
    let huge = (0..32).flat_map(|bit| [1 << bit, (1 << bit) - 1, u32::MAX - (1 << bit), u32::MAX - (1 << bit) + 1]);
    let wrapping =
        (0..=25).map(|number| 0x0100_0000 * number + 33).chain((1..100).map(|times| u32::MAX / 100 * times + 5));
    let any: Vec<u32> = (0..10_000).map(|_| random.number() as u32).collect();
    for number in (0..=70_000).chain(huge).chain(wrapping).chain(any) {
        let (said, back) = (calls::to_256ths(number), calls::to_hundredths(number));
        note(tally, said, "timer converted, to 256ths or back", 0);
        note(tally, back, "timer converted, to 256ths or back", 1);
        same_return(&format!("to 256ths of {number}"), (library.to_256ths)(number), said)?;
        same_return(&format!("to hundredths of {number}"), (library.to_hundredths)(number), back)?;
    }
    Ok(())
}

fn note(tally: &mut Tally, said: Returned, title: &'static str, number: u32) {
    tally.calls += 1;
    match said.0 {
        0 => tally.note(title, number),
        refusal => tally.note("refused", refusal),
    }
}
