//! A sound book in the other edition: its own bytes, but for the edition and the steps.

use crate::block::BLOCK;
use crate::book::{PLACE, PLACES};
use crate::contents::{seal, Contents};
use crate::manner::Manner;
use crate::Fault;

/// Puts the book into the room and returns how many bytes it has; a book's own refusals, 11 and 20 leave the room.
pub fn convert<M: Manner>(bytes: &[u8], room: &mut [u8]) -> Result<usize, Fault> {
    let contents = Contents::read(bytes)?;
    contents.sound::<M>()?;
    if let Some(row) = contents.rows.iter().position(|row| row.step > 1) {
        return Err((11, row as u32));
    }
    let other = room.get_mut(..bytes.len()).ok_or((20, 0))?;
    other.copy_from_slice(bytes);
    let (blocks, _) = other.as_chunks_mut::<BLOCK>();
    blocks[0][4] = 3 - blocks[0][4];
    // No row has a step past 1: it is 1 in edition 2, and 0 in the byte of edition 1.
    let step = blocks[0][4] - 1;
    for (at, block) in blocks[1..].iter_mut().enumerate() {
        let (places, _) = block[28..508].as_chunks_mut::<PLACE>();
        places[..(contents.rows.len() - PLACES * at).min(PLACES)].iter_mut().for_each(|place| place[29] = step);
    }
    blocks.iter_mut().for_each(seal);
    Ok(bytes.len())
}
