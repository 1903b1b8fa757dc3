//! Whole tenths.

pub const MOST_TENTHS: u64 = 9_999_999_999_999;

#[derive(Clone, Copy, Debug, PartialEq, Eq, PartialOrd, Ord, Hash)]
pub struct Tenths {
    count: u64,
}

impl Tenths {
    pub fn new(count: u64) -> Option<Tenths> {
        (count <= MOST_TENTHS).then_some(Tenths { count })
    }

    pub fn get(self) -> u64 {
        self.count
    }
}

impl From<u32> for Tenths {
    fn from(count: u32) -> Tenths {
        Tenths { count: u64::from(count) }
    }
}
