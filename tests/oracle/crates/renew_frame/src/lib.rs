//! `StateHash` with the meaning that document 01 gives it under Fold: FNV-1a, 64 bits, numbers
//! entering little-endian.

#[derive(Clone, Copy, Debug)]
pub struct StateHash(u64);

impl StateHash {
    #[must_use]
    pub fn new() -> Self {
        Self(0xcbf2_9ce4_8422_2325)
    }

    /// A fold that stands at `state`; the console's `absorb` starts from any.
    #[must_use]
    pub fn standing_at(state: u64) -> Self {
        Self(state)
    }

    #[must_use]
    pub fn absorb_bytes(self, bytes: &[u8]) -> Self {
        let step = |state: u64, &byte: &u8| (state ^ u64::from(byte)).wrapping_mul(0x100_0000_01b3);
        Self(bytes.iter().fold(self.0, step))
    }

    #[must_use]
    pub fn absorb_u32(self, value: u32) -> Self {
        self.absorb_bytes(&value.to_le_bytes())
    }

    #[must_use]
    pub fn absorb_u64(self, value: u64) -> Self {
        self.absorb_bytes(&value.to_le_bytes())
    }

    #[must_use]
    pub fn absorb_i64(self, value: i64) -> Self {
        self.absorb_bytes(&value.to_le_bytes())
    }

    #[must_use]
    pub fn finish(self) -> u64 {
        self.0
    }
}

impl Default for StateHash {
    fn default() -> Self {
        Self::new()
    }
}
