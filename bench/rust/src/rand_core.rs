//! The generator of the program: Xoshiro256++ (Blackman and Vigna 2019), seeded by SplitMix64.

pub trait Rng {
    fn next_u32(&mut self) -> u32;
}

pub trait SeedableRng: Sized {
    fn seed_from_u64(seed: u64) -> Self;
}

/// What a jump of 2^128 words adds up.
const JUMP: [u64; 4] = [0x180E_C6D3_3CFD_0ABA, 0xD5A6_1266_F0C9_392C, 0xA958_2618_E03F_C9AA, 0x39AB_DC45_29B1_661C];

pub struct Generator {
    state: [u64; 4],
}

impl Generator {
    pub fn of_seed(mut seed: u64) -> Generator {
        let state = [(); 4].map(|()| {
            seed = seed.wrapping_add(0x9E37_79B9_7F4A_7C15);
            let mut word = seed;
            word = (word ^ (word >> 30)).wrapping_mul(0xBF58_476D_1CE4_E5B9);
            word = (word ^ (word >> 27)).wrapping_mul(0x94D0_49BB_1331_11EB);
            word ^ (word >> 31)
        });
        Generator { state }
    }

    pub fn jump(&mut self) {
        let mut sum = [0; 4];
        for bit in 0..256 {
            if JUMP[bit / 64] >> (bit % 64) & 1 == 1 {
                sum = std::array::from_fn(|place| sum[place] ^ self.state[place]);
            }
            self.next_u32();
        }
        self.state = sum;
    }
}

impl SeedableRng for Generator {
    fn seed_from_u64(seed: u64) -> Generator {
        Generator::of_seed(seed)
    }
}

impl Rng for Generator {
    fn next_u32(&mut self) -> u32 {
        let s = &mut self.state;
        let word = s[0].wrapping_add(s[3]).rotate_left(23).wrapping_add(s[0]);
        let shifted = s[1] << 17;
        s[2] ^= s[0];
        s[3] ^= s[1];
        s[1] ^= s[2];
        s[0] ^= s[3];
        s[2] ^= shifted;
        s[3] = s[3].rotate_left(45);
        (word >> 32) as u32
    }
}
