//! Random numbers that depend on nothing but their seed (splitmix64).

pub struct Rng(u64);

impl Rng {
    pub fn new(seed: u64) -> Rng {
        Rng(seed.wrapping_mul(0x2545_F491_4F6C_DD1D) ^ 0x9E37_79B9_7F4A_7C15)
    }

    pub fn next(&mut self) -> u64 {
        self.0 = self.0.wrapping_add(0x9E37_79B9_7F4A_7C15);
        let mut z = self.0;
        z = (z ^ (z >> 30)).wrapping_mul(0xBF58_476D_1CE4_E5B9);
        z = (z ^ (z >> 27)).wrapping_mul(0x94D0_49BB_1331_11EB);
        z ^ (z >> 31)
    }

    /// A number from 0 to `n` - 1; 0 where `n` is 0.
    pub fn below(&mut self, n: usize) -> usize {
        ((u128::from(self.next()) * n as u128) >> 64) as usize
    }

    /// A number from `low` to `high`, both included.
    pub fn between(&mut self, low: usize, high: usize) -> usize {
        low + self.below(high - low + 1)
    }

    pub fn percent(&mut self, chance: usize) -> bool {
        self.below(100) < chance
    }

    pub fn byte(&mut self) -> u8 {
        self.next() as u8
    }

    pub fn pick<T: Copy>(&mut self, choices: &[T]) -> T {
        choices[self.below(choices.len())]
    }

    pub fn fill(&mut self, bytes: &mut [u8]) {
        for chunk in bytes.chunks_mut(8) {
            let word = self.next().to_le_bytes();
            chunk.copy_from_slice(&word[..chunk.len()]);
        }
    }

    pub fn bytes(&mut self, length: usize) -> Vec<u8> {
        let mut bytes = vec![0; length];
        self.fill(&mut bytes);
        bytes
    }

    /// Bytes among which those that the wire escapes are frequent.
    pub fn wire_bytes(&mut self, length: usize) -> Vec<u8> {
        let mut bytes = self.bytes(length);
        let share = self.pick(&[0, 5, 50, 100]);
        for byte in &mut bytes {
            if self.percent(share) {
                *byte = self.pick(&[0xDB, 0xDC, 0xDE, 0xCB, 0xCC, 0xCE]);
            }
        }
        bytes
    }

    /// A number beside another one, a known one, or the other one with a bit turned.
    pub fn near(&mut self, number: u32, known: &[u32]) -> u32 {
        match self.below(5) {
            0 | 1 => number.wrapping_add(1),
            2 => number.wrapping_sub(1),
            3 => self.pick(known),
            _ => number ^ 1 << self.below(32),
        }
    }

    /// A record, mostly as it is; now and then noise, noise behind its front, cut short, or with bytes behind it.
    pub fn mangled(&mut self, mut record: Vec<u8>, front: usize) -> Vec<u8> {
        match self.below(30) {
            0 => self.fill(&mut record),
            1 => self.fill(&mut record[front..]),
            2 => record.truncate(self.below(record.len())),
            3..=8 => record.extend([0xEE; 4]),
            _ => {}
        }
        record
    }
}
