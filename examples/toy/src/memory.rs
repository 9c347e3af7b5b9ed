//! The memory that programs and machine code read and write.

/// 256 bytes in a ring: address 256 is address 0 again, and -1 is address 255.
#[derive(Clone, Debug, PartialEq)]
pub struct Memory {
    bytes: [u8; 256],
}

impl Memory {
    /// A memory in which byte `n` is `n`.
    pub fn counting() -> Memory {
        Memory { bytes: std::array::from_fn(|n| n as u8) }
    }

    /// The eight bytes from `address` on, the first one the lowest.
    pub fn load(&self, address: i64) -> i64 {
        i64::from_le_bytes(std::array::from_fn(|n| self.bytes[place(address, n)]))
    }

    pub fn store(&mut self, address: i64, value: i64) {
        for (n, byte) in value.to_le_bytes().into_iter().enumerate() {
            self.bytes[place(address, n)] = byte;
        }
    }
}

fn place(address: i64, n: usize) -> usize {
    address.wrapping_add(n as i64).rem_euclid(256) as usize
}
