//! A packet: several blocks in one call (rules 1.19 to 1.22 and 2.31).

use super::session::held_count;
use super::{Delivered, Refusal, Session, BLOCK_SIZE};

/// The result of a block that was not held.
const NEW: u32 = 0;
/// The result of a block that was held with equal bytes.
const SAME: u32 = 64;

impl Session {
    /// Takes the blocks of a packet in, one delivery after another, and answers
    /// the held count after the last. Piece i belongs to number i. The results
    /// go to the front of `results`: 0 for New, 64 for Same, else the number of
    /// the delivery's refusal.
    ///
    /// # Errors
    ///
    /// Refusals 1 to 4, then 6 and 17 about the packet as a whole. Image, map
    /// and results then stay as they were.
    ///
    /// ```
    /// # use sarvoltig_reference::model::{Refusal, Session};
    /// let mut session = Session::new(vec![0; 1024], vec![0; 1]);
    /// session.open(1024)?;
    /// let pieces = [[5; 512], [6; 512], [5; 512], [7; 512]].concat();
    /// let mut results = [9; 5];
    /// assert_eq!(session.deliver_packet(&[1, 2, 1, 1], &pieces, &mut results), Ok(1));
    /// assert_eq!(results, [0, 5, 64, 7, 9]);
    ///
    /// let wrong_size = Refusal { number: 6, value: 0, entry: 0 };
    /// assert_eq!(session.deliver_packet(&[0], &[8; 511], &mut []), Err(wrong_size));
    /// let short_list = Refusal { number: 17, value: 1, entry: 0 };
    /// assert_eq!(session.deliver_packet(&[0], &[8; 512], &mut []), Err(short_list));
    /// assert_eq!(session.deliver_packet(&[], &[], &mut []), Ok(1));
    /// # Ok::<(), Refusal>(())
    /// ```
    pub fn deliver_packet(
        &mut self,
        blocks: &[u64],
        pieces: &[u8],
        results: &mut [u32],
    ) -> Result<u64, Refusal> {
        let file_blocks = self.check_intake()?;
        if !is_piece_each(blocks, pieces) {
            return Err(Refusal::plain(6));
        }
        if results.len() < blocks.len() {
            return Err(Refusal::with_value(17, blocks.len() as u64));
        }
        let pieces = pieces.chunks(BLOCK_SIZE);
        for ((block, piece), result) in blocks.iter().zip(pieces).zip(results.iter_mut()) {
            *result = result_of(self.deliver(*block, piece));
        }
        Ok(held_count(self.map(), file_blocks))
    }
}

/// Whether the pieces are 512 bytes for each number.
fn is_piece_each(blocks: &[u64], pieces: &[u8]) -> bool {
    pieces.len().is_multiple_of(BLOCK_SIZE) && pieces.len() / BLOCK_SIZE == blocks.len()
}

/// A block's result.
fn result_of(delivered: Result<Delivered, Refusal>) -> u32 {
    match delivered {
        Ok(Delivered::New(_)) => NEW,
        Ok(Delivered::Same(_)) => SAME,
        Err(refusal) => u32::from(refusal.number),
    }
}
