//! Random inputs, the same in every run with the same seed.

/// Xorshift.
pub struct Random(u64);

impl Random {
    /// The inputs of the gate.
    pub fn gate() -> Random {
        Random(0x0123_4567_89AB_CDEF)
    }

    /// The inputs of a part of a round, each of its own.
    pub fn of(seed: u64, round: u64, part: u64) -> Random {
        let mut state = seed;
        for number in [round, part] {
            // Splitmix.
            state = state
                .wrapping_add(number)
                .wrapping_add(0x9E37_79B9_7F4A_7C15);
            state = (state ^ state >> 30).wrapping_mul(0xBF58_476D_1CE4_E5B9);
            state = (state ^ state >> 27).wrapping_mul(0x94D0_49BB_1331_11EB);
            state ^= state >> 31;
        }
        Random(state.max(1))
    }

    pub fn next(&mut self) -> u64 {
        self.0 ^= self.0 >> 12;
        self.0 ^= self.0 << 25;
        self.0 ^= self.0 >> 27;
        self.0.wrapping_mul(0x2545_F491_4F6C_DD1D)
    }

    /// A number below `limit`.
    pub fn below(&mut self, limit: usize) -> usize {
        ((self.next() >> 32) as usize) % limit
    }

    pub fn one_in(&mut self, times: usize) -> bool {
        self.below(times) == 0
    }

    pub fn byte(&mut self) -> u8 {
        (self.next() >> 56) as u8
    }

    /// A byte from `low` to 255.
    pub fn at_least(&mut self, low: u8) -> u8 {
        low + self.below(256 - low as usize) as u8
    }

    pub fn fill(&mut self, bytes: &mut [u8]) {
        for part in bytes.chunks_mut(8) {
            part.copy_from_slice(&self.next().to_le_bytes()[..part.len()]);
        }
    }

    /// A byte at which some rule changes.
    pub fn edge(&mut self) -> u8 {
        const EDGES: [u8; 24] = [
            0x9B, 0x9B, 0x9B, 0x9B, 0x9B, 0x0D, 0x0D, 0x0D, 0x00, 0x00, 0x00, 0x01, 0x7F, 0x80,
            0xFF, 0x8F, 0x90, 0x9F, 0xC0, 0xCF, 0x9A, 0x9C, 0x16, 0x18,
        ];
        EDGES[self.below(EDGES.len())]
    }

    /// A byte of one of four mixtures: any byte, edges among them, half of them
    /// &9B, nothing but &9B.
    pub fn mixed(&mut self, mixture: usize) -> u8 {
        match mixture {
            1 if self.one_in(3) => self.edge(),
            2 if self.one_in(2) => 0x9B,
            3 => 0x9B,
            _ => self.byte(),
        }
    }

    pub fn bytes(&mut self, mixture: usize, length: usize) -> Vec<u8> {
        (0..length).map(|_| self.mixed(mixture)).collect()
    }

    /// Bytes of a string or text that ends with `end`.
    pub fn without(&mut self, end: u8, mixture: usize, length: usize) -> Vec<u8> {
        let mut string = self.bytes(mixture, length);
        for byte in &mut string {
            while *byte == end {
                *byte = self.byte();
            }
        }
        string
    }

    /// A length of 0 to 255.
    pub fn length(&mut self) -> usize {
        match self.below(16) {
            0 => 0,
            1 => 255 - self.below(3),
            2 => self.below(256),
            _ => self.below(24),
        }
    }
}
