// The ten functions of softposit 0.4.0, compiled where they lie: `functions` writes `functions.rs` beside this file, with the
// crate's function files, each as it stands, and its `kernel`.
#[derive(Clone, Copy)]
pub struct P16E1(i16);

// The constants and the layout of src/p16e1.rs that the function files name.
impl P16E1 {
    pub const ZERO: Self = Self(0);
    pub const ONE: Self = Self(0x_4000);
    pub const MAX: Self = Self(0x_7FFF);
    pub const MIN_POSITIVE: Self = Self(0x_0001);
    pub const NAR: Self = Self(-0x_8000);

    pub const fn from_bits(v: u16) -> Self {
        Self(v as _)
    }
    pub const fn to_bits(self) -> u16 {
        self.0 as _
    }
}

mod math {
    use super::P16E1;
    include!("functions.rs");

    pub fn square_root(f: u64) -> u64 {
        kernel::isqrt(f)
    }
}

#[allow(unused_imports)]
pub use math::square_root;
