//! The two traits that the derives of num_derive implement.

pub trait FromPrimitive: Sized {
    fn from_u64(n: u64) -> Option<Self>;

    fn from_u8(n: u8) -> Option<Self> {
        Self::from_u64(u64::from(n))
    }
}

pub trait ToPrimitive {
    fn to_u64(&self) -> Option<u64>;
}
