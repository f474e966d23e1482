//! A stand-in for bit-set and bit-vec: blocks of 32 bits, and a length in bits.
#[derive(Clone, Debug, Default)]
pub struct BitVec {
    blocks: Vec<u32>,
    bits: usize,
}

impl BitVec {
    fn get(&self, index: usize) -> bool {
        index < self.bits && self.blocks[index / 32] & (1 << (index % 32)) != 0
    }

    pub fn fill(&mut self, value: bool) {
        self.blocks.fill(if value { u32::MAX } else { 0 });
    }
}

#[derive(Clone, Debug, Default)]
pub struct BitSet {
    vec: BitVec,
}

impl BitSet {
    pub fn new() -> Self {
        Self::default()
    }

    pub fn with_capacity(bits: usize) -> Self {
        let blocks = vec![0; bits.div_ceil(32)];
        Self { vec: BitVec { blocks, bits } }
    }

    pub fn is_empty(&self) -> bool {
        self.vec.blocks.iter().all(|block| *block == 0)
    }

    pub fn make_empty(&mut self) {
        self.vec.fill(false);
    }

    pub fn reserve_len(&mut self, bits: usize) {
        self.vec.blocks.reserve(bits.div_ceil(32).saturating_sub(self.vec.blocks.len()));
    }

    #[inline]
    pub fn contains(&self, index: usize) -> bool {
        self.vec.get(index)
    }

    #[inline]
    pub fn insert(&mut self, index: usize) -> bool {
        if self.contains(index) {
            return false;
        }
        if index >= self.vec.bits {
            self.vec.bits = index + 1;
            self.vec.blocks.resize(self.vec.bits.div_ceil(32), 0);
        }
        self.vec.blocks[index / 32] |= 1 << (index % 32);
        true
    }

    pub fn remove(&mut self, index: usize) -> bool {
        if !self.contains(index) {
            return false;
        }
        self.vec.blocks[index / 32] &= !(1 << (index % 32));
        true
    }

    pub fn get_mut(&mut self) -> &mut BitVec {
        &mut self.vec
    }

    pub fn iter(&self) -> impl '_ + Iterator<Item = usize> {
        self.vec.blocks.iter().enumerate().flat_map(|(index, block)| {
            let mut rest = *block;
            std::iter::from_fn(move || {
                (rest != 0).then(|| {
                    let bit = rest.trailing_zeros() as usize;
                    rest &= rest - 1;
                    index * 32 + bit
                })
            })
        })
    }

    pub fn into_bit_vec(self) -> BitVec {
        self.vec
    }

    pub fn from_bit_vec(vec: BitVec) -> Self {
        Self { vec }
    }
}
