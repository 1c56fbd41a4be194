//! Seeded numbers (splitmix64), and the choices that cases are made of.

pub struct Random(u64);

/// The largest prime below 2^16, the least above it, and the largest allowed.
const LARGE: [u32; 3] = [65_521, 65_537, 16_777_213];

fn is_prime(p: u32) -> bool {
    p >= 2 && (2..p).take_while(|d| d * d <= p).all(|d| !p.is_multiple_of(d))
}

impl Random {
    pub fn new(seed: u64) -> Random {
        Random(seed)
    }

    pub fn next(&mut self) -> u64 {
        self.0 = self.0.wrapping_add(0x9e37_79b9_7f4a_7c15);
        let mut z = self.0;
        z = (z ^ (z >> 30)).wrapping_mul(0xbf58_476d_1ce4_e5b9);
        z = (z ^ (z >> 27)).wrapping_mul(0x94d0_49bb_1331_11eb);
        z ^ (z >> 31)
    }

    pub fn below(&mut self, bound: u32) -> u32 {
        (self.next() % bound as u64) as u32
    }

    pub fn within(&mut self, least: u32, most: u32) -> u32 {
        least + self.below(most - least + 1)
    }

    /// True once in so many times.
    pub fn once_in(&mut self, times: u32) -> bool {
        self.below(times) == 0
    }

    pub fn pick<T: Copy>(&mut self, from: &[T]) -> T {
        from[self.below(from.len() as u32) as usize]
    }

    /// A prime: often one of the least, so that powers pass p; now and then one at a limit; otherwise any, of each length in bits as often.
    pub fn prime(&mut self) -> u32 {
        match self.below(8) {
            0..=3 => self.pick(&[2, 3, 5, 7, 11, 13]),
            4 => self.pick(&LARGE),
            _ => {
                let bits = self.within(2, 24);
                let from = self.within(1 << (bits - 1), (1 << bits) - 1);
                (2..=from).rev().find(|&p| is_prime(p)).expect("2 is a prime")
            }
        }
    }

    /// Another number below p.
    pub fn other(&mut self, p: u32, number: u32) -> u32 {
        (number + self.within(1, p - 1)) % p
    }

    pub fn shuffle<T>(&mut self, list: &mut [T]) {
        (1..list.len()).for_each(|i| list.swap(i, self.below(i as u32 + 1) as usize));
    }

    /// Words below p; now and then mostly zeros, so that factors end early.
    pub fn words(&mut self, p: u32, count: usize) -> Vec<u32> {
        let sparse = self.once_in(4);
        (0..count).map(|_| if sparse && !self.once_in(4) { 0 } else { self.below(p) }).collect()
    }

    /// What an output holds before a call: any words.
    pub fn junk(&mut self, count: usize) -> Vec<u32> {
        (0..count).map(|_| self.next() as u32).collect()
    }

    pub fn junk_bytes(&mut self, count: usize) -> Vec<u8> {
        self.junk(count).iter().map(|&word| word as u8).collect()
    }

    /// A number of columns: mostly few, now and then up to the limit and one past it.
    pub fn columns(&mut self) -> u32 {
        match self.below(24) {
            0 => self.pick(&[255, 256, 256, 257]),
            1..=3 => self.within(9, 64),
            _ => self.within(1, 8),
        }
    }

    /// A degree bound: mostly small, now and then up to the limit and one past it.
    pub fn degree(&mut self) -> u32 {
        match self.below(24) {
            0 => self.pick(&[31, 32, 32, 33]),
            1..=3 => self.within(6, 20),
            _ => self.within(0, 5),
        }
    }

    /// How many of n terms are known: all of them, the first, all but the last, or any number.
    pub fn known(&mut self, n: u32) -> u32 {
        let any = self.within(1, n);
        self.pick(&[n, n, 1, (n - 1).max(1), any, any])
    }

    /// A count of known terms that row 21 refuses.
    pub fn bad_known(&mut self, n: u32) -> u32 {
        self.pick(&[0, n.wrapping_add(1), u32::MAX])
    }

    /// The length of an output that needs so many words: enough, a few more, or too short.
    pub fn room(&mut self, needed: usize) -> usize {
        match self.below(8) {
            0 => needed.saturating_sub(1),
            1 => self.below(needed as u32 + 1) as usize,
            2..=4 => needed,
            _ => needed + self.within(1, 5) as usize,
        }
    }

    /// Faults to put into a good call, of a list of them: none, one, or several at once.
    pub fn faults<T: Copy>(&mut self, of: &[T]) -> Vec<T> {
        let count = self.pick(&[0, 0, 0, 0, 1, 1, 1, 1, 2, 2, 3, 4]);
        (0..count).map(|_| self.pick(of)).collect()
    }

    /// A modulus that row 1 or row 2 refuses.
    pub fn bad_modulus(&mut self) -> u32 {
        let out_of_range = [0, 1, 1 << 24, (1 << 24) + 1, (1 << 24) + 43, u32::MAX]; // 2^24 + 43 is a prime
        let composite = [4, 9, 91, 255, 65_533, 65_535, 65_536, 64_009, 4093 * 4093, 4091 * 4093, 16_777_214, 16_777_215];
        if self.once_in(3) {
            self.pick(&out_of_range)
        } else {
            self.pick(&composite)
        }
    }

    /// A word that is p or more, or, for the least of them, just below.
    pub fn edge_word(&mut self, p: u32) -> u32 {
        let next = p.wrapping_add(1);
        self.pick(&[p, p, next, u32::MAX, p.wrapping_sub(1)])
    }

    pub fn huge(&mut self) -> u32 {
        self.pick(&[1 << 31, u32::MAX, 65536, 1 << 16, u32::MAX - 1])
    }
}
