//! Blocks that are read and written again and again.
use arrayvec::ArrayVec;
use block_codec::{Block, BlockReader, block_len, write_block};
use std::hint::black_box;

/// Room for the blocks of a call.
pub type Octets = ArrayVec<u8, 4096>;

/// Reads the blocks `times` times. Returns how many octets they take in all.
pub fn read_times(bytes: &[u8], times: u32) -> usize {
    (0..times).map(|_| read(bytes)).sum()
}

/// Reads blocks to the end, or to the first fault. Returns how many octets they take.
fn read(bytes: &[u8]) -> usize {
    let mut reader = BlockReader::new(bytes);
    let mut octets = 0;
    while let Some(Ok(block)) = reader.next() {
        // The compiler must make the whole block, and not only what its length depends on.
        octets += block_len(black_box(&block));
    }
    octets
}

/// Reads the blocks once, and writes each of them `times` times in one place.
pub fn write_times(out: &mut Octets, bytes: &[u8], times: u32) {
    let mut reader = BlockReader::new(bytes);
    while let Some(Ok(block)) = reader.next() {
        write(out, &block, times);
    }
}

/// Writes a block after the others, `times` times in one place, if there is room.
fn write(out: &mut Octets, block: &Block, times: u32) {
    let start = out.len();
    for _ in 0..times {
        out.truncate(start);
        if block_len(block) <= out.remaining_capacity() {
            write_block(out, black_box(block));
        }
    }
}

#[cfg(test)]
mod tests {
    use super::*;

    /// The blocks of a Connect of three modules (`bench/figures/blocks.py --octets`).
    const CONNECT: &[u8] = include_bytes!("../blocks/stdin");

    #[test]
    fn the_blocks_of_a_connect_are_read_and_written_as_they_came() {
        assert_eq!(read_times(CONNECT, 1), 391);
        let mut out = Octets::new();
        write_times(&mut out, CONNECT, 1);
        assert_eq!(out.as_slice(), CONNECT);
    }
}
