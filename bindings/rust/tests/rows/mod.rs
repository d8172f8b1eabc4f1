//! The ten rows of document 01 in whole numbers, and nothing of the library's: written from the document and from the `poly` of
//! each function's file in softposit 0.4.0. x is the number in units of 2^-28.
use balehasp::NAR;

/// What a row of document 01 says of a pattern: the answer outright, or the number that is rounded, in units of 2^-70.
pub enum Row {
    Outright(u16),
    Rounded(i128),
}

impl Row {
    /// number / 2^bits.
    fn over(number: i128, bits: i128) -> Self {
        Row::Rounded(number << (70 - bits))
    }

    fn signed(self, negative: bool) -> Self {
        match self {
            Row::Outright(answer) if negative => Row::Outright(answer.wrapping_neg()),
            Row::Rounded(number) if negative => Row::Rounded(-number),
            positive => positive,
        }
    }
}

/// The steps of a `poly`, each a constant and a shift: what the step before gave, 0 at first, is added to the constant, or taken
/// from it, and the product of that with f is shifted.
fn steps(f: i128, sign: i128, steps: &[(i128, u32)]) -> i128 {
    steps.iter().fold(0, |s, &(constant, bits)| (f * (constant + sign * s)) >> bits)
}

/// Rows 1 and 2 past what is given outright.
fn power(function: u16, x: i128) -> Row {
    if function == 1 {
        let t = (x * 48_408_813) >> 28;
        let exp = [(7_529, 26), (20_487, 20), (0x4F_8300, 24), (0x38C_C980, 20), (0x1_EBFF_C800, 26), (0x2_C5C8_3600, 22)];
        Row::over((1 << 37) + steps(t & 0x1FF_FFFF, 1, &exp) + 2048, 37 - (t >> 25))
    } else {
        let t = x >> 8;
        let exp2 = [(491, 0), (0x9BA0_0000, 34), (0x13_F840, 20), (0x71_8A80, 16), (0x1EC0_4000, 21), (0x2C5C_8000, 24)];
        Row::over((1 << 26) + steps(t & 0xF_FFFF, 1, &exp2), 26 - (t >> 20))
    }
}

/// Rows 3 and 4 of a number above zero, (1 + h/4096)·2^e.
fn logarithm(function: u16, x: i128) -> Row {
    let top = i128::from(x.ilog2());
    let (e, h) = (top - 28, ((x << 12) >> top) - 4096);
    if function == 3 {
        let z = ((h << 31) + 2) / (h + 8192);
        let s = steps((z * z) >> 30, 1, &[(1_584, 28), (26_661, 29), (302_676, 27), (16_136_153, 30)]);
        let l = (e << 30) + ((z * (193_635_259 + s)) >> 27);
        let c = if l < 0 { 186_065_280 } else { 186_065_279 };
        Row::over((l.abs() * c) >> 28, 30).signed(l < 0)
    } else {
        let z = (h << 29) / (h + 8192);
        let s = steps((z * z) >> 30, 1, &[(1_661, 25), (13_209, 26), (75_694, 24), (2_017_019, 24)]);
        Row::over((e << 28) + ((z * (96_817_627 + s)) >> 26), 28)
    }
}

/// Rows 5 and 6 of a magnitude.
fn wave(function: u16, x: i128) -> Row {
    let (quadrant, rest) = ((x >> 27) % 4, x % (1 << 27));
    let f = if quadrant % 2 == 1 { (1 << 27) - rest } else { rest };
    let square = (f >> 11).pow(2) >> 8;
    let size = match function {
        5 if rest == 0 => Row::Outright(0x4000 * (quadrant % 2) as u16),
        6 if rest == 0 => Row::Outright(0x4000 * (1 - quadrant % 2) as u16),
        5 if f < 0xA_5801 => Row::over((f * 102_943) >> 15, 28),
        6 if f < 0xE_6001 => Row::over(0x1FF_FFFF, 25),
        5 => {
            let s = steps(square, -1, &[(650, 25), (9_813, 23), (334_253, 23), (5_418_741, 22)]);
            Row::over(((f >> 11) * (52_707_180 - s)) >> 13, 28)
        }
        _ => {
            let s = steps(square, -1, &[(28_875, 25), (349_194, 24), (4_255_560, 24), (20_698_014, 23)]);
            Row::over(33_554_428 - s, 25)
        }
    };
    size.signed((function == 5 && quadrant >= 2) || (function == 6 && (quadrant == 1 || quadrant == 2)))
}

/// Row 7 of a magnitude.
fn tangent(x: i128) -> Row {
    let remainder = x % (1 << 28);
    let f = remainder.min((1 << 28) - remainder);
    let size = match f {
        0 => Row::Outright(0),
        0x800_0000 => Row::Outright(NAR),
        0x400_0000 => Row::Outright(0x4000),
        1..=0xE000 => Row::over((f * 102_943) >> 15, 28),
        _ => {
            let square = (f >> 9).pow(2) >> 10;
            let above = 105_414_368 - steps(square, -1, &[(182_527, 27), (3_648_552, 23)]);
            let below = 0x800_0000 - steps(square, -1, &[(13_335_493, 25), (295_106_440, 27)]);
            Row::over((((f >> 9) * above) << 11) / below, 28)
        }
    };
    size.signed(remainder > 1 << 27)
}

/// Row 8 of a magnitude and its pattern.
fn arc_tangent(pattern: u16, x: i128) -> Row {
    let poly = |f: i128| {
        let by = [(6_969, 24), (530_432, 28), (1_273_944, 28), (2_358_656, 27), (9_340_208, 29), (17_568_064, 24)];
        ((f + 1) << 30) / (843_315_168 + steps((f * f) >> 28, -1, &by))
    };
    let k = match pattern {
        ..=4925 => (x << 30) / (((x * x) >> 34) * 67 + 843_314_118),
        4926..=0x3FFF => poly(x),
        0x4000..=27108 => (1 << 29) - poly((1 << 40) / (x >> 16)),
        _ => (1 << 29) - 0x2_8BE5_FF80_0000 / (((x >> 20) << 13) + 0xAA5_5000 / (x >> 20)),
    };
    Row::over(k, 30)
}

/// The floor of the square root of j·2^42.
fn root(j: u16) -> i128 {
    let square = i128::from(j) << 42;
    (0..28).rev().map(|at| 1 << at).fold(0, |root, bit| if (root + bit).pow(2) <= square { root + bit } else { root })
}

/// Row 9 of a magnitude and its pattern, at most 1.
fn arc_sine(pattern: u16, x: i128) -> Row {
    let by = [(3_855, 26), (13_944, 26), (100_344, 25), (1_780_112, 26)];
    let poly = |f: i128| (f * (42_722_832 + steps((f * f) >> 28, 1, &by))) >> 25;
    Row::over(if pattern < 0x3000 { poly(x) } else { (1 << 29) - 2 * poly(root(0x4000 - pattern)) }, 30)
}

/// Row 10 past what is given outright.
fn arc_cosine(p: u16, x: i128) -> Row {
    let by = [(7_955, 27), (13_696, 26), (100_510, 25), (1_780_047, 26)];
    let poly = |f: i128| (1 << 29) - ((f * (42_722_829 + steps((f * f) >> 28, 1, &by))) >> 25);
    let k = match p {
        ..=0x2FFF => poly(x),
        0x3000..=0x4000 => (1 << 30) - 2 * poly(root(0x4000 - p)),
        53249.. => (1 << 30) - poly(x.abs()),
        _ => 2 * poly(root(p - 0xC000)),
    };
    Row::over(k, 30)
}

/// What the function's row says of the pattern p, whose number is x.
pub fn row(function: u16, p: u16, x: i128) -> Row {
    let pattern = if p < NAR { p } else { p.wrapping_neg() };
    match (function, p) {
        (_, NAR) => Row::Outright(NAR),
        (1, ..=191 | 65408..) | (2, ..=220 | 65380..) => Row::Outright(0x4000),
        (1, 28846..=0x7FFF) | (2, 29377..=0x7FFF) => Row::Outright(0x7FFF),
        (1, 0x8001..=36690) | (2, 0x8001..=36159) => Row::Outright(0x0001),
        (1 | 2, _) => power(function, x),
        (3 | 4, 0 | 0x8001..) => Row::Outright(NAR),
        (3 | 4, _) => logarithm(function, x),
        (5 | 7, _) if pattern >= 31744 || p == 0 => Row::Outright(0),
        (5, _) => wave(5, x.abs()).signed(x < 0),
        (6, _) => wave(6, x.abs()),
        (7, _) => tangent(x.abs()).signed(x < 0),
        (8 | 9, 0) => Row::Outright(0),
        (8, _) => arc_tangent(pattern, x.abs()).signed(x < 0),
        (9, _) if pattern > 0x4000 => Row::Outright(NAR),
        (9, _) => arc_sine(pattern, x.abs()).signed(x < 0),
        (_, 0x4001..=0xBFFF) => Row::Outright(NAR),
        (_, ..=164 | 65308..) => Row::Outright(0x3000),
        _ => arc_cosine(p, x),
    }
}
