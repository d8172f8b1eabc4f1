// Runs the ten functions of softposit 0.4.0 on all 65,536 patterns, and its square root on j * 2^42 for j from 0 to
// 4,096, and writes the answers to standard output: ten tables of 65,536 16-bit numbers in the order of the function
// numbers, then 4,097 32-bit numbers, all little-endian.
mod original;

use original::P16E1;
use std::io::Write;

fn main() {
    let functions: [fn(P16E1) -> P16E1; 10] = [
        P16E1::exp,
        P16E1::exp2,
        P16E1::ln,
        P16E1::log2,
        P16E1::sin_pi,
        P16E1::cos_pi,
        P16E1::tan_pi,
        P16E1::atan_pi,
        P16E1::asin_pi,
        P16E1::acos_pi,
    ];
    let mut answers = Vec::new();
    for f in functions {
        for p in 0..=u16::MAX {
            answers.extend(f(P16E1::from_bits(p)).to_bits().to_le_bytes());
        }
    }
    for j in 0..=4096u64 {
        let root = u32::try_from(original::square_root(j << 42)).expect("a root of at most 32 bits");
        answers.extend(root.to_le_bytes());
    }
    std::io::stdout().write_all(&answers).expect("writing the answers");
}
