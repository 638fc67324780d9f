//! The ring and the trace taken from it.

use super::trace;

/// Whether slice and state are sound.
fn sound(length: usize, state: &[u64]) -> Result<(), u32> {
    if length == 0 || length > 4_095 {
        return Err(18);
    }
    let length = length as u64;
    if state[0] >= length || state[1] > length {
        return Err(19);
    }
    Ok(())
}

/// Adds a sample; the state is the next place and the count.
pub fn add(slots: &mut [u8], state: &mut [u64], sample: u8) -> Result<(), u32> {
    sound(slots.len(), state)?;
    let length = slots.len() as u64;
    slots[state[0] as usize] = u8::from(sample != 0);
    state[0] = (state[0] + 1) % length;
    state[1] = length.min(state[1] + 1);
    Ok(())
}

/// Takes a trace: the number of samples, oldest first in the output.
pub fn take(slots: &[u8], state: &[u64], out: &mut [u8]) -> Result<u64, u32> {
    sound(slots.len(), state)?;
    let count = state[1] as usize;
    if out.len() < trace::bytes_for(count) {
        return Err(22);
    }
    let first = state[0] as usize + slots.len() - count;
    let sample = |i: usize| slots[(first + i) % slots.len()] != 0;
    let samples: Vec<bool> = (0..count).map(sample).collect();
    let bytes = trace::pack(&samples);
    out[..bytes.len()].copy_from_slice(&bytes);
    Ok(state[1])
}
