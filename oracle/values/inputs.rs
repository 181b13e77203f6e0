// Where the list's inputs come from: named corners first, then their neighbours, then values drawn by a fixed generator.

/// 01's limits: min, max and raw values lie from LEAST up to LARGEST, deadzones up to LARGEST_DEADZONE, or are ABSENT.
pub const LEAST: i32 = -8_388_608;
pub const LARGEST: i32 = 8_388_607;
pub const LARGEST_DEADZONE: u32 = 16_777_215;
pub const ABSENT: u32 = 0xffff_ffff;

// zeros, subnormals and their ends, 1.0, 0.5, 0.25, 0.1, 0.01, 2.0, the largest number, infinities, a NaN
const CORNERS: [u32; 20] = [
    0x0000_0000, 0x0000_0001, 0x0000_0002, 0x0000_0003, 0x007f_fffe, 0x007f_ffff, 0x0080_0000, 0x0080_0001, 0x1a35_04f3, 0x1f80_0000, 0x3c23_d70a,
    0x3dcc_cccd, 0x3e80_0000, 0x3f00_0000, 0x3f7f_ffff, 0x3f80_0000, 0x4000_0000, 0x7f7f_ffff, 0x7f80_0000, 0x7fc0_0000,
];

pub struct Draw(u64);

impl Draw {
    pub fn new(seed: u64) -> Draw {
        Draw(seed.wrapping_mul(0x9e37_79b9_7f4a_7c15) | 1)
    }

    // xorshift64*
    pub fn bits(&mut self) -> u32 {
        self.0 ^= self.0 >> 12;
        self.0 ^= self.0 << 25;
        self.0 ^= self.0 >> 27;
        (self.0.wrapping_mul(0x2545_f491_4f6c_dd1d) >> 32) as u32
    }

    pub fn below(&mut self, n: u32) -> u32 {
        ((self.bits() as u64 * n as u64) >> 32) as u32
    }

    pub fn corner(&mut self) -> f32 {
        let at = self.below(CORNERS.len() as u32) as usize;
        f32::from_bits(CORNERS[at] | (self.below(2) << 31))
    }

    // a few steps of the format away
    pub fn beside(&mut self, x: f32) -> f32 {
        f32::from_bits(x.to_bits().wrapping_add(self.below(7)).wrapping_sub(3))
    }

    // what a stick gives: a fraction of -1..1
    pub fn stick(&mut self) -> f32 {
        let parts = [1, 127, 128, 255, 32_768, 8_388_608][self.below(6) as usize];
        (self.below(2 * parts + 1) as i32 - parts as i32) as f32 / parts as f32
    }

    pub fn value(&mut self) -> f32 {
        match self.below(8) {
            0 => self.corner(),
            1 => {
                let x = self.corner();
                self.beside(x)
            }
            2 => f32::from_bits(self.bits()),
            3 => {
                let x = self.stick();
                self.beside(x)
            }
            4 => {
                let x = self.stick();
                x * x
            }
            _ => self.stick(),
        }
    }

    pub fn whole(&mut self) -> i32 {
        match self.below(6) {
            0 => [LEAST, LEAST + 1, -1, 0, 1, LARGEST - 1, LARGEST][self.below(7) as usize],
            1 => LEAST + (self.bits() >> 8) as i32,
            2 => self.below(65_536) as i32 - 32_768,
            _ => self.below(257) as i32 - 1,
        }
    }

    // min and max: those of 01's numbers and of usual pads, the limits, and drawn ones
    pub fn range(&mut self) -> (i32, i32) {
        const USUAL: [(i32, i32); 10] = [
            (0, 255), (-32_768, 32_767), (-1, 1), (0, 4), (0, 256), (0, 1), (0, 1_023), (LEAST, LARGEST), (LEAST, LEAST + 1), (-127, 127),
        ];
        if self.below(2) == 0 {
            return USUAL[self.below(10) as usize];
        }
        loop {
            let (a, b) = (self.whole(), self.whole());
            if a < b {
                return (a, b);
            }
        }
    }

    // a raw value: the ends, the middle, each with its neighbours, the limits, any between, any at all
    pub fn raw(&mut self, min: i32, max: i32) -> i32 {
        let near = [min, max, (min + max) / 2, LEAST, LARGEST][self.below(5) as usize] + self.below(5) as i32 - 2;
        let any = match self.below(4) {
            0 => near,
            1 => self.whole(),
            _ => min + self.below((max - min) as u32) as i32,
        };
        any.clamp(LEAST, LARGEST)
    }
}
