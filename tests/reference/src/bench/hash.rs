//! FNV-1a of 64 bits: the hash by which the vectors compare areas and desks.
//!
//! A call changes little of an area, and the empty slots at its end are zeros. So an area's hash goes on from the first
//! block that changed since the last one, and takes a block of zeros in one step.

const START: u64 = 0xcbf2_9ce4_8422_2325;
const PRIME: u64 = 0x0000_0100_0000_01b3;
const BLOCK: usize = 1024;

pub fn fnv1a(bytes: &[u8]) -> u64 {
    bytes.chunks(BLOCK).fold(START, add_block)
}

fn add_block(hash: u64, block: &[u8]) -> u64 {
    // A zero byte only multiplies by the prime.
    if is_zero(block) {
        return hash.wrapping_mul(PRIME.wrapping_pow(block.len() as u32));
    }
    block.iter().fold(hash, |hash, byte| (hash ^ u64::from(*byte)).wrapping_mul(PRIME))
}

fn is_zero(block: &[u8]) -> bool {
    block.iter().fold(0, |any, byte| any | byte) == 0
}

/// The hash of an area that is asked for again and again.
#[derive(Default)]
pub struct AreaHash {
    bytes: Vec<u8>,
    /// The hash of everything up to the end of each block.
    after_block: Vec<u64>,
}

impl AreaHash {
    pub fn of(&mut self, bytes: &[u8]) -> u64 {
        let blocks = bytes.chunks(BLOCK).zip(self.bytes.chunks(BLOCK));
        let same = blocks.take_while(|(new, old)| new == old).count();
        self.after_block.truncate(same);
        let mut hash = self.after_block.last().copied().unwrap_or(START);
        for block in bytes.chunks(BLOCK).skip(same) {
            hash = add_block(hash, block);
            self.after_block.push(hash);
        }
        self.bytes.clear();
        self.bytes.extend_from_slice(bytes);
        hash
    }
}

#[cfg(test)]
mod tests {
    use super::*;

    #[test]
    fn the_published_values_of_fnv_1a() {
        assert_eq!(fnv1a(b""), 0xcbf2_9ce4_8422_2325);
        assert_eq!(fnv1a(b"a"), 0xaf63_dc4c_8601_ec8c);
        assert_eq!(fnv1a(b"foobar"), 0x8594_4171_f739_67e8);
    }

    #[test]
    fn going_on_from_a_change_gives_the_hash_of_the_whole() {
        let mut hash = AreaHash::default();
        let mut bytes = vec![0; 5 * BLOCK + 7];
        for place in [0, 4 * BLOCK, 3, 2 * BLOCK + 1, 5 * BLOCK + 6] {
            bytes[place] ^= 0x5A;
            assert_eq!(hash.of(&bytes), fnv1a(&bytes));
        }
        bytes.truncate(3 * BLOCK);
        assert_eq!(hash.of(&bytes), fnv1a(&bytes));
        bytes.resize(6 * BLOCK, 0);
        assert_eq!(hash.of(&bytes), fnv1a(&bytes));
    }
}
