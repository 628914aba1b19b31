//! Timers in hundredths and in 256ths of a second.

use super::message::Refusal;

pub const TIMER_RANGE: Refusal = Refusal::of(10);

/// Rounded down.
pub fn to_256ths(hundredths: u32) -> Result<u32, Refusal> {
    if hundredths > 25599 {
        return Err(TIMER_RANGE);
    }
    Ok(256 * hundredths / 100)
}

/// Rounded up, so that going out and back returns the number.
pub fn to_hundredths(ticks: u32) -> Result<u32, Refusal> {
    if ticks > 65535 {
        return Err(TIMER_RANGE);
    }
    Ok((100 * ticks).div_ceil(256))
}
