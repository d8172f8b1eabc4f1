//! The crate against the recorded answers of the original Rust and an independent model of document 01.
//!
//! The answers are what oracle/record writes; BALEHASP_ANSWERS names the file where it is not in its place in the tree.
use balehasp::{
    acos_pi, add, answer, answer_by_number, asin_pi, atan_pi, batch, batch_by_number, cos_pi, difference, differences, exp,
    exp2, from_f64, listing, ln, log2, multiply, negate, sided, sided_by_number, sin_pi, span, subtract, tan_pi, to_f64,
    turn, Batched, Function, Pieces, Real, Refusal, Side, Sided, Span, LONGEST_ANSWERED, LONGEST_LISTING, NAR, PIECES,
};
use rows::{row, Row};
use std::cmp::Ordering;
use std::ops::Bound;

mod rows;

const ROUNDS: usize = 100_000;
const PAIRS: usize = 50_000;

type Call = fn(u16) -> u16;

/// Every function: its number in document 01, its case and its call.
const FUNCTIONS: [(u16, Function, Call); 10] = [
    (1, Function::Exp, exp),
    (2, Function::Exp2, exp2),
    (3, Function::Ln, ln),
    (4, Function::Log2, log2),
    (5, Function::SinPi, sin_pi),
    (6, Function::CosPi, cos_pi),
    (7, Function::TanPi, tan_pi),
    (8, Function::AtanPi, atan_pi),
    (9, Function::AsinPi, asin_pi),
    (10, Function::AcosPi, acos_pi),
];

struct Answers(Vec<u8>);

impl Answers {
    fn read() -> Self {
        let file = std::env::var("BALEHASP_ANSWERS")
            .unwrap_or_else(|_| concat!(env!("CARGO_MANIFEST_DIR"), "/../../crates/whole_run/stdin").to_string());
        let bytes = std::fs::read(&file).unwrap_or_else(|e| panic!("{file}: {e}"));
        assert!(bytes.len() >= 10 * 65536 * 2, "{file} does not hold the answers of ten functions");
        Answers(bytes)
    }

    fn of(&self, function: u16, p: u16) -> u16 {
        number_at(&self.0, (usize::from(function) - 1) * 131_072 + 2 * usize::from(p))
    }
}

fn number_at(bytes: &[u8], at: usize) -> u16 {
    u16::from_le_bytes([bytes[at], bytes[at + 1]])
}

struct Noise(u64);

impl Noise {
    fn next(&mut self) -> u64 {
        self.0 = self.0.wrapping_add(0x9E37_79B9_7F4A_7C15);
        let z = (self.0 ^ (self.0 >> 30)).wrapping_mul(0xBF58_476D_1CE4_E5B9);
        let z = (z ^ (z >> 27)).wrapping_mul(0x94D0_49BB_1331_11EB);
        z ^ (z >> 31)
    }

    fn below(&mut self, n: usize) -> usize {
        usize::try_from(self.next() % n as u64).unwrap()
    }

    fn pattern(&mut self) -> u16 {
        self.next() as u16
    }

    fn patterns(&mut self, n: usize) -> Vec<u16> {
        (0..n).map(|_| self.pattern()).collect()
    }

    /// A function's number, unknown now and then.
    fn function(&mut self) -> u16 {
        match self.below(12) {
            0 => self.pattern(),
            1 => 11 * (self.pattern() % 2),
            _ => 1 + self.pattern() % 10,
        }
    }
}

#[test]
fn all_655360_answers() {
    let answers = Answers::read();
    let mut count = 0;
    for (place, (number, function, call)) in FUNCTIONS.into_iter().enumerate() {
        assert_eq!(function.number(), number);
        assert_eq!(Function::try_from(number), Ok(function));
        assert_eq!(Function::ALL[place], function);
        for p in 0..=u16::MAX {
            let right = answers.of(number, p);
            assert_eq!(call(p), right, "{function:?} of {p:#06x}");
            assert_eq!(answer(function, p), right, "answer({function:?}, {p:#06x})");
            assert_eq!(answer_by_number(number, p), Ok(right), "answer_by_number({number}, {p:#06x})");
            count += 1;
        }
    }
    assert_eq!(count, 655_360);
    println!("{count} answers by ten calls, by case and by number: all as the Rust's");
}

#[test]
fn unknown_function_numbers() {
    for number in (0..=u16::MAX).filter(|number| !(1..=10).contains(number)) {
        assert_eq!(Function::try_from(number), Err(Refusal::Function));
        assert_eq!(answer_by_number(number, 0x4000), Err(Refusal::Function));
    }
}

#[test]
fn refusals_have_their_numbers_and_words() {
    let all = [
        Refusal::Function,
        Refusal::Output,
        Refusal::Start,
        Refusal::Cut,
        Refusal::Limits,
        Refusal::After,
        Refusal::Count,
        Refusal::Different,
        Refusal::State,
    ];
    for (number, refusal) in (1..=8).chain([12]).zip(all) {
        assert_eq!(refusal.number(), number);
        let error: Box<dyn std::error::Error> = Box::new(refusal);
        assert!(error.to_string().len() > 10);
        assert_eq!(all.iter().filter(|other| other.to_string() == error.to_string()).count(), 1);
    }
}

/// What a batch does to the output, and its outcome.
fn model_batch(
    answers: &Answers,
    function: u16,
    input: &[u16],
    output: &mut [u16],
    start: usize,
    limit: usize,
) -> Result<Batched, Refusal> {
    if !(1..=10).contains(&function) {
        return Err(Refusal::Function);
    }
    if output.len() < input.len() {
        return Err(Refusal::Output);
    }
    if start > input.len() {
        return Err(Refusal::Start);
    }
    let next = input.len().min(start.saturating_add(limit));
    for place in start..next {
        output[place] = answers.of(function, input[place]);
    }
    Ok(Batched { next, nars: output[start..next].iter().filter(|&&answer| answer == NAR).count() })
}

#[test]
fn batches() {
    let answers = Answers::read();
    let mut noise = Noise(1);
    let mut given = [0; 4];
    for _ in 0..ROUNDS {
        let (function, inputs) = (noise.function(), noise.below(40));
        let outputs = if noise.below(8) == 0 { noise.below(inputs + 2) } else { inputs + noise.below(4) };
        let start = noise.below(inputs + 2);
        let limit = if noise.below(4) == 0 { usize::MAX - noise.below(3) } else { noise.below(50) };
        let input = noise.patterns(inputs);
        let mut output = noise.patterns(outputs);
        let mut right = output.clone();
        let outcome = model_batch(&answers, function, &input, &mut right, start, limit);
        assert_eq!(batch_by_number(function, &input, &mut output, start, limit), outcome);
        assert_eq!(output, right);
        if let Ok(function) = Function::try_from(function) {
            assert_eq!(batch(function, &input, &mut output, start, limit), outcome);
            assert_eq!(output, right);
        }
        given[outcome.map_or_else(|refusal| usize::from(refusal.number()), |_| 0)] += 1;
    }
    assert!(given.iter().all(|&count| count > ROUNDS / 100), "{given:?}");
    println!("{ROUNDS} random batches as the model's; answered, refused by 1, 2, 3: {given:?}");
}

/// A section's numbers and the bytes after it, by document 01's order of refusals.
fn model_section(bytes: &[u8], least: usize, most: usize) -> Result<(Vec<u16>, &[u8]), Refusal> {
    let (count, rest) = bytes.split_at_checked(2).ok_or(Refusal::Cut)?;
    let count = usize::from(number_at(count, 0));
    if !(least..=most).contains(&count) {
        return Err(Refusal::Limits);
    }
    let (numbers, rest) = rest.split_at_checked(2 * count).ok_or(Refusal::Cut)?;
    Ok(((0..count).map(|place| number_at(numbers, 2 * place)).collect(), rest))
}

/// What a listing asks, functions and patterns, and the bytes after it.
type Asked = (Vec<u16>, Vec<u16>);

fn model_sections(input: &[u8]) -> Result<(Asked, &[u8]), Refusal> {
    let (functions, rest) = model_section(input, 1, 10)?;
    if functions.iter().any(|function| !(1..=10).contains(function)) {
        return Err(Refusal::Function);
    }
    let (patterns, rest) = model_section(rest, 0, 1024)?;
    Ok(((functions, patterns), rest))
}

fn model_listing(answers: &Answers, input: &[u8], room: usize) -> Result<Vec<u8>, Refusal> {
    let ((functions, patterns), rest) = model_sections(input)?;
    if !rest.is_empty() {
        return Err(Refusal::After);
    }
    let mut answered = input.to_vec();
    answered.extend(u16::try_from(functions.len() * patterns.len()).unwrap().to_le_bytes());
    for &function in &functions {
        answered.extend(patterns.iter().flat_map(|&p| answers.of(function, p).to_le_bytes()));
    }
    if answered.len() > room {
        return Err(Refusal::Output);
    }
    Ok(answered)
}

/// One listing, with its outcome held to the model's and every byte of the output to what it must be.
fn one_listing(answers: &Answers, noise: &mut Noise, input: &[u8], room: usize) -> Result<usize, Refusal> {
    let mut output: Vec<u8> = (0..room).map(|_| noise.next() as u8).collect();
    let mut right = output.clone();
    let outcome = model_listing(answers, input, room).map(|answered| {
        right[..answered.len()].copy_from_slice(&answered);
        answered.len()
    });
    assert_eq!(listing(input, &mut output), outcome, "{input:x?} in {room} bytes");
    assert_eq!(output, right, "{input:x?} in {room} bytes");
    outcome
}

fn some_listing(noise: &mut Noise, functions: usize, patterns: usize) -> Vec<u8> {
    let mut numbers = vec![functions as u16];
    numbers.extend((0..functions).map(|_| 1 + noise.pattern() % 10));
    numbers.push(patterns as u16);
    numbers.extend(noise.patterns(patterns));
    numbers.into_iter().flat_map(u16::to_le_bytes).collect()
}

#[test]
fn listings() {
    let answers = Answers::read();
    let mut noise = Noise(2);
    let mut given = [0; 7];
    for _ in 0..ROUNDS {
        let (functions, patterns) = (1 + noise.below(10), noise.below(12));
        let mut bytes = some_listing(&mut noise, functions, patterns);
        match noise.below(10) {
            0 => bytes.truncate(noise.below(bytes.len())),
            1 => bytes.extend([7; 3].iter().take(1 + noise.below(3))),
            2 => bytes[noise.below(2)] = noise.next() as u8,
            3 => bytes[2 + noise.below(2)] = noise.next() as u8,
            4 => bytes[2 + 2 * functions + noise.below(2)] ^= 1 << noise.below(8),
            _ => {}
        }
        let long = bytes.len() + 2 + 2 * functions * patterns;
        let room = if noise.below(4) == 0 { noise.below(long) } else { long + noise.below(9) };
        given[one_listing(&answers, &mut noise, &bytes, room).map_or_else(|refusal| usize::from(refusal.number()), |_| 0)] += 1;
    }
    assert!((0..7).all(|number| (number == 3) == (given[number] <= ROUNDS / 100)), "{given:?}");
    println!("{ROUNDS} random and damaged listings as the model's; answered, refused by 1 to 6: {given:?}");
}

#[test]
fn the_longest_listing() {
    let answers = Answers::read();
    let mut noise = Noise(3);
    let mut bytes = some_listing(&mut noise, 10, 1024);
    assert_eq!(bytes.len(), LONGEST_LISTING);
    assert_eq!(one_listing(&answers, &mut noise, &bytes, LONGEST_ANSWERED), Ok(LONGEST_ANSWERED));
    assert_eq!(one_listing(&answers, &mut noise, &bytes, LONGEST_ANSWERED - 1), Err(Refusal::Output));
    bytes.push(0);
    assert_eq!(one_listing(&answers, &mut noise, &bytes, LONGEST_ANSWERED), Err(Refusal::After));
}

/// After how many bytes of a listing a piece of it is refused, and with what. It is the shortest beginning that no more bytes can
/// mend: every longer one is refused for the same.
fn model_deciding(input: &[u8]) -> Option<(usize, Refusal)> {
    (1..=input.len()).find_map(|n| {
        let refusal = match model_sections(&input[..n]) {
            Ok((_, rest)) => (!rest.is_empty()).then_some(Refusal::After),
            Err(Refusal::Cut) => None,
            Err(refusal) => Some(refusal),
        };
        refusal.map(|refusal| (n, refusal))
    })
}

fn model_stored(bytes: &[u8], refusal: u16) -> [u8; PIECES] {
    let mut stored = [0; PIECES];
    stored[..bytes.len()].copy_from_slice(bytes);
    stored[LONGEST_LISTING..][..2].copy_from_slice(&(bytes.len() as u16).to_le_bytes());
    stored[LONGEST_LISTING + 2..].copy_from_slice(&refusal.to_le_bytes());
    stored
}

/// A listing in pieces of these sizes, the rest being the last, with every call held to the model.
fn one_cutting(answers: &Answers, noise: &mut Noise, input: &[u8], sizes: &[usize], room: usize) -> Result<usize, Refusal> {
    let decided = model_deciding(input);
    let mut pieces = Pieces::new();
    let mut came = 0;
    for size in sizes.iter().copied().chain([input.len()]) {
        let piece = &input[came..][..size.min(input.len() - came)];
        came += piece.len();
        let wants = decided.filter(|&(n, _)| n <= came).map_or(Ok(()), |(_, refusal)| Err(refusal));
        assert_eq!(pieces.piece(piece), wants, "{input:x?} after {came} bytes");
        let stored = wants.map_or_else(|refusal| model_stored(&[], refusal.number()), |()| model_stored(&input[..came], 0));
        assert_eq!(pieces.as_bytes(), &stored, "{input:x?} after {came} bytes");
        if noise.below(8) == 0 {
            pieces = Pieces::from_bytes(*pieces.clone().as_bytes());
        }
    }
    let mut output: Vec<u8> = (0..room).map(|_| noise.next() as u8).collect();
    let mut right = output.clone();
    let outcome = model_listing(answers, input, room).map(|answered| {
        right[..answered.len()].copy_from_slice(&answered);
        answered.len()
    });
    assert_eq!(pieces.end(&mut output), outcome, "{input:x?} in {room} bytes");
    assert_eq!(output, right, "{input:x?} in {room} bytes");
    assert_eq!(pieces.as_bytes(), &model_stored(&[], outcome.map_or_else(Refusal::number, |_| 0)));
    if let Err(refusal) = outcome {
        let stored = pieces.clone();
        assert_eq!(pieces.piece(&input[..input.len().min(3)]), Err(refusal));
        assert_eq!(pieces.end(&mut output), Err(refusal));
        assert_eq!((pieces, output), (stored, right));
    }
    outcome
}

#[test]
fn listings_in_pieces() {
    let answers = Answers::read();
    let mut noise = Noise(7);
    let mut given = [0; 7];
    let mut calls = 0;
    for round in 0..PAIRS {
        let (functions, patterns) = (1 + noise.below(10), noise.below(12));
        let mut bytes = some_listing(&mut noise, functions, patterns);
        match noise.below(10) {
            0 => bytes.truncate(noise.below(bytes.len())),
            1 => bytes.extend([7; 3].iter().take(1 + noise.below(3))),
            2 => bytes[noise.below(2)] = noise.next() as u8,
            3 => bytes[2 + noise.below(2)] = noise.next() as u8,
            4 => bytes[2 + 2 * functions + noise.below(2)] ^= 1 << noise.below(8),
            _ => {}
        }
        let sizes: Vec<usize> = match round % 16 {
            0 => vec![1; bytes.len()],
            _ => (0..noise.below(7)).map(|_| noise.below(bytes.len() + 1) / 2).collect(),
        };
        let long = bytes.len() + 2 + 2 * functions * patterns;
        let room = if noise.below(4) == 0 { noise.below(long) } else { long + noise.below(9) };
        calls += sizes.len() + 2;
        let outcome = one_cutting(&answers, &mut noise, &bytes, &sizes, room);
        given[outcome.map_or_else(|refusal| usize::from(refusal.number()), |_| 0)] += 1;
    }
    assert!((0..7).all(|number| (number == 3) == (given[number] <= PAIRS / 100)), "{given:?}");
    let mut longest = some_listing(&mut noise, 10, 1024);
    let bytewise = vec![1; LONGEST_LISTING];
    assert_eq!(one_cutting(&answers, &mut noise, &longest, &bytewise, LONGEST_ANSWERED), Ok(LONGEST_ANSWERED));
    longest.extend([0; 9]);
    assert_eq!(one_cutting(&answers, &mut noise, &longest, &[2000], LONGEST_ANSWERED), Err(Refusal::After));
    println!("{PAIRS} cuttings of random and damaged listings, {calls} calls, as the model's; answered, refused by 1 to 6: {given:?}");
}

#[test]
fn states_that_no_calls_produce() {
    let mut noise = Noise(8);
    let mut forged = 0;
    let mut states: Vec<[u8; PIECES]> = (3..=u16::MAX).step_by(97).chain([3, 7, 8, 9, 12, 256]).map(|refusal| model_stored(&[], refusal)).collect();
    states.extend([1, 2, 4, 5, 6].map(|refusal| model_stored(&[1], refusal)));
    states.extend([&[0, 0][..], &[11, 0], &[1, 0, 0, 0], &[1, 0, 2, 0, 1, 4], &[1, 0, 2, 0, 0, 0, 0]].map(|bytes| model_stored(bytes, 0)));
    for at in 0..LONGEST_LISTING {
        let mut stored = model_stored(&[], 0);
        stored[at] = 1 + (noise.next() % 255) as u8;
        states.push(stored);
    }
    for count in [2073u16, 2076, 4096, u16::MAX] {
        let mut stored = model_stored(&[1, 0], 0);
        stored[LONGEST_LISTING..][..2].copy_from_slice(&count.to_le_bytes());
        states.push(stored);
    }
    for stored in states {
        let mut pieces = Pieces::from_bytes(stored);
        let mut output = [7; 64];
        assert_eq!(pieces.piece(&[1, 0]), Err(Refusal::State));
        assert_eq!(pieces.end(&mut output), Err(Refusal::State));
        assert_eq!((pieces.as_bytes(), output), (&stored, [7; 64]));
        forged += 1;
    }
    println!("{forged} states that no calls produce: refused with 12, and as they were");
}

/// What an answered listing asks, and its answers. One count of answers alone is within limits; another is `Count`.
fn model_answered(input: &[u8]) -> Result<(Asked, Vec<u16>), Refusal> {
    let (asked, rest) = model_sections(input)?;
    let count = asked.0.len() * asked.1.len();
    let (answers, rest) = model_section(rest, count, count).map_err(|refusal| match refusal {
        Refusal::Limits => Refusal::Count,
        other => other,
    })?;
    if !rest.is_empty() {
        return Err(Refusal::After);
    }
    Ok((asked, answers))
}

/// Every place at which two answered listings differ.
fn model_differences(first: &[u8], second: &[u8]) -> Result<Vec<usize>, Refusal> {
    let ((asked, answers), (also_asked, others)) = (model_answered(first)?, model_answered(second)?);
    if asked != also_asked {
        return Err(Refusal::Different);
    }
    Ok((0..answers.len()).filter(|&place| answers[place] != others[place]).collect())
}

/// Damage to an answered listing of so many functions and patterns, which stays sound now and then and asks something else.
fn damage_answered(noise: &mut Noise, bytes: &mut Vec<u8>, functions: usize, patterns: usize) {
    let (pattern, end) = (4 + 2 * functions, 4 + 2 * (functions + patterns));
    match noise.below(9) {
        0 => bytes.truncate(noise.below(bytes.len())),
        1 => bytes.truncate(end + noise.below(4)),
        2 => bytes.extend([7; 3].iter().take(1 + noise.below(3))),
        3 => bytes[noise.below(2)] = noise.next() as u8,
        4 => bytes[pattern - 1] = 4 + noise.next() as u8 % 4,
        5 => bytes[end + noise.below(2)] ^= 1 << noise.below(8),
        6 => bytes[2 + 2 * noise.below(functions)] = noise.below(12) as u8,
        7 if patterns > 0 => {
            let (one, other) = (pattern + 2 * noise.below(patterns), pattern + 2 * noise.below(patterns));
            for byte in 0..2 {
                bytes.swap(one + byte, other + byte);
            }
        }
        _ => bytes[2 + noise.below(end - 2)] ^= 1 << noise.below(8),
    }
}

/// A pair compared from places around the answers and far beyond them, and every difference of it, as the model has them.
fn one_pair(noise: &mut Noise, first: &[u8], second: &[u8], count: usize) -> Result<usize, Refusal> {
    let right = model_differences(first, second);
    let inside = noise.below(count + 1);
    for from in [0, inside, count.wrapping_sub(1), count, usize::MAX / 2 + 1 + inside, usize::MAX] {
        let least = right.clone().map(|places| places.into_iter().find(|&place| place >= from));
        assert_eq!(difference(first, second, from), least, "{first:x?} and {second:x?} from {from}");
    }
    assert_eq!(differences(first, second).map(Iterator::collect), right, "{first:x?} and {second:x?}");
    right.map(|places| places.len())
}

#[test]
fn pairs_of_answered_listings() {
    let answers = Answers::read();
    let mut noise = Noise(5);
    let (mut given, mut found) = ([0; 9], 0);
    for _ in 0..PAIRS {
        let (functions, patterns) = (1 + noise.below(10), noise.below(12));
        let (count, input) = (functions * patterns, some_listing(&mut noise, functions, patterns));
        let mut pair = [(); 2].map(|()| model_listing(&answers, &input, LONGEST_ANSWERED).unwrap());
        for _ in 0..noise.below(5).min(count) {
            pair[1][input.len() + 2 + noise.below(2 * count)] ^= 1 << noise.below(8);
        }
        for bytes in &mut pair {
            if noise.below(3) == 0 {
                damage_answered(&mut noise, bytes, functions, patterns);
            }
        }
        let outcome = one_pair(&mut noise, &pair[0], &pair[1], count);
        given[outcome.map_or_else(|refusal| usize::from(refusal.number()), |_| 0)] += 1;
        found += outcome.unwrap_or(0);
    }
    assert!((0..9).all(|number| (number == 2 || number == 3) == (given[number] <= PAIRS / 100)), "{given:?}");
    println!("{PAIRS} pairs of answered listings as the model's, {found} differences; answered, refused by 1 to 8: {given:?}");
}

#[test]
fn the_longest_answered_listing() {
    let answers = Answers::read();
    let mut noise = Noise(6);
    let input = some_listing(&mut noise, 10, 1024);
    let first = model_listing(&answers, &input, LONGEST_ANSWERED).unwrap();
    let mut second = first.clone();
    assert_eq!(first.len(), LONGEST_ANSWERED);
    assert_eq!(one_pair(&mut noise, &first, &second, 10240), Ok(0));
    second[LONGEST_ANSWERED - 1] ^= 0x80;
    assert_eq!(difference(&first, &second, 0), Ok(Some(10239)));
    for answer in second[input.len() + 2..].chunks_exact_mut(2) {
        answer[0] ^= 1;
    }
    assert_eq!(one_pair(&mut noise, &first, &second, 10240), Ok(10240));
    second.push(0);
    assert_eq!(one_pair(&mut noise, &first, &second, 10240), Err(Refusal::After));
}

/// The number of the posit p of n bits with one exponent bit, neither zero nor NaR, read off its bits.
fn number_of(p: u32, n: u32) -> f64 {
    if p >> (n - 1) == 1 {
        return -number_of((1 << n) - p, n);
    }
    let bits: Vec<u32> = (0..n - 1).rev().map(|at| p >> at & 1).collect();
    let run = bits.iter().take_while(|&&bit| bit == bits[0]).count();
    let regime = if bits[0] == 1 { run as i32 - 1 } else { -(run as i32) };
    let mut after = bits.iter().skip(run + 1).map(|&bit| f64::from(bit));
    let power = 2 * regime + after.next().unwrap_or(0.0) as i32;
    let fraction: f64 = after.zip(1..).map(|(bit, place)| bit * 2f64.powi(-place)).sum();
    (1.0 + fraction) * 2f64.powi(power)
}

/// The pattern that x rounds to: the largest magnitude whose dividing number from the one below x reaches, even on a tie.
fn rounded(dividing: &[f64], x: f64) -> u16 {
    if !x.is_finite() {
        return NAR;
    }
    if x == 0.0 {
        return 0;
    }
    let size = x.abs();
    // dividing[u - 1] lies between the magnitudes u and u + 1
    let below = dividing.partition_point(|&d| d < size);
    let magnitude = 1 + below as u16;
    let magnitude = if dividing.get(below) == Some(&size) && magnitude % 2 == 1 { magnitude + 1 } else { magnitude };
    if x < 0.0 {
        magnitude.wrapping_neg()
    } else {
        magnitude
    }
}

/// The operations, exactly: numbers are whole numbers of 2^-28, products of 2^-56.
struct Exact {
    /// The numbers between the magnitudes u and u + 1, from u = 1 on, in units of 2^-30.
    dividing: Vec<i128>,
}

impl Exact {
    fn new() -> Self {
        Exact { dividing: (1..0x7FFF).map(|u| (number_of(2 * u + 1, 17) * 2f64.powi(30)) as i128).collect() }
    }

    fn units(p: u16) -> i128 {
        match p {
            0 => 0,
            _ => (number_of(p.into(), 16) * 2f64.powi(28)) as i128,
        }
    }

    /// The pattern of x units of 2^-(30 + finer): one more than the dividing numbers below it, and on one the even neighbour.
    fn rounded(&self, x: i128, finer: u32) -> u16 {
        let size = x.abs();
        let below = self.dividing.partition_point(|&d| (d << finer) < size);
        let tie = self.dividing.get(below).is_some_and(|&d| (d << finer) == size);
        let magnitude = match u16::try_from(below + 1).unwrap() {
            _ if x == 0 => 0,
            odd if tie && odd % 2 == 1 => odd + 1,
            magnitude => magnitude,
        };
        if x < 0 {
            magnitude.wrapping_neg()
        } else {
            magnitude
        }
    }

    /// A row's answer, and the side on which it lies of the number that was rounded.
    fn sided(&self, row: Row) -> Sided {
        let x = match row {
            Row::Outright(answer) => return Sided { answer, side: Side::On },
            Row::Rounded(x) => x,
        };
        let answer = self.rounded(x, 40);
        let side = match (Self::units(answer) << 42).cmp(&x) {
            Ordering::Less => Side::Below,
            Ordering::Equal => Side::On,
            Ordering::Greater => Side::Above,
        };
        Sided { answer, side }
    }

    fn sum(&self, a: u16, b: u16) -> u16 {
        if a == NAR || b == NAR {
            return NAR;
        }
        self.rounded(4 * (Self::units(a) + Self::units(b)), 0)
    }

    fn product(&self, a: u16, b: u16) -> u16 {
        if a == NAR || b == NAR {
            return NAR;
        }
        self.rounded(Self::units(a) * Self::units(b), 26)
    }

    fn entry(&self, row: [u16; 3], column: [u16; 3]) -> u16 {
        let products: Vec<u16> = row.iter().zip(column).map(|(&a, b)| self.product(a, b)).collect();
        self.sum(self.sum(products[0], products[1]), products[2])
    }

    fn turned(&self, answers: &Answers, [heading, pitch, roll]: [u16; 3], arm: [u16; 3]) -> [u16; 3] {
        if [heading, pitch, roll].contains(&NAR) || arm.contains(&NAR) {
            return [NAR; 3];
        }
        let wave = |p| (answers.of(6, p), answers.of(5, p), answers.of(5, p).wrapping_neg());
        let (c, s, m) = wave(heading);
        let first = [[c, m, 0], [s, c, 0], [0, 0, 0x4000]];
        let (c, s, m) = wave(pitch);
        let second = [[c, 0, s], [0, 0x4000, 0], [m, 0, c]];
        let (c, s, m) = wave(roll);
        let third = [[0x4000, 0, 0], [0, c, m], [0, s, c]];
        let times = |m: [[u16; 3]; 3], n: [[u16; 3]; 3]| {
            m.map(|row| [0, 1, 2].map(|k| self.entry(row, n.map(|across| across[k]))))
        };
        times(times(first, second), third).map(|row| self.entry(row, arm))
    }
}

#[test]
fn operations_and_turns() {
    const TURNS: usize = 20_000;
    let (answers, exact) = (Answers::read(), Exact::new());
    let mut noise = Noise(5);
    let special = [0, 1, 2, 0x3000, 0x3FFF, 0x4000, 0x5000, 0x7FFE, 0x7FFF, NAR, 0x8001, 0xC000, 0xFFFF];
    let pattern = |noise: &mut Noise| if noise.below(8) == 0 { special[noise.below(special.len())] } else { noise.pattern() };
    let check = |a: u16, b: u16| {
        assert_eq!(negate(b), b.wrapping_neg());
        assert_eq!(add(a, b), exact.sum(a, b), "{a:#06x} + {b:#06x}");
        assert_eq!(subtract(a, b), exact.sum(a, b.wrapping_neg()), "{a:#06x} - {b:#06x}");
        assert_eq!(multiply(a, b), exact.product(a, b), "{a:#06x} * {b:#06x}");
    };
    special.iter().for_each(|&a| special.iter().for_each(|&b| check(a, b)));
    for _ in 0..ROUNDS {
        check(pattern(&mut noise), pattern(&mut noise));
    }
    for _ in 0..TURNS {
        let angles = [(); 3].map(|()| pattern(&mut noise));
        let arm = [(); 3].map(|()| pattern(&mut noise));
        let [heading, pitch, roll] = angles;
        assert_eq!(turn(heading, pitch, roll, arm), exact.turned(&answers, angles, arm), "{angles:x?} {arm:x?}");
    }
    println!("{} pairs of patterns and {TURNS} turns: as the exact model's", special.len().pow(2) + ROUNDS);
}

/// How many answers of each function lie below, on and above the number that was rounded.
const SIDES: [[usize; 3]; 10] = [
    [28826, 8165, 28545],
    [29168, 7214, 29154],
    [16322, 32771, 16443],
    [16447, 32824, 16265],
    [31232, 3072, 31232],
    [30380, 3096, 32060],
    [30718, 4100, 30718],
    [32763, 10, 32763],
    [16379, 32778, 16379],
    [16236, 33162, 16138],
];

#[test]
fn all_655360_sides() {
    let (answers, exact) = (Answers::read(), Exact::new());
    let all = [Side::Below, Side::On, Side::Above];
    assert_eq!(all.map(Side::number), [-1, 0, 1]);
    let mut count = 0;
    for ((number, function, call), counted) in FUNCTIONS.into_iter().zip(SIDES) {
        let mut found = [0; 3];
        for p in 0..=u16::MAX {
            let x = if p == NAR { 0 } else { Exact::units(p) };
            let right = exact.sided(row(number, p, x));
            assert_eq!(sided(function, p), right, "{function:?} of {p:#06x}");
            assert_eq!(sided_by_number(number, p), Ok(right), "{function:?} of {p:#06x}");
            assert_eq!([right.answer; 2], [answers.of(number, p), call(p)], "{function:?} of {p:#06x}");
            found[all.iter().position(|&side| side == right.side).unwrap()] += 1;
            count += 1;
        }
        assert_eq!(found, counted, "{function:?}");
    }
    for number in (0..=u16::MAX).filter(|number| !(1..=10).contains(number)) {
        assert_eq!(sided_by_number(number, 0x4000), Err(Refusal::Function));
    }
    assert_eq!(count, 655_360);
    println!("{count} answers with their sides: all as the exact model's of the ten rows, the answers as the Rust's");
}

#[test]
fn conversions() {
    let dividing: Vec<f64> = (1..0x7FFF).map(|u| number_of(2 * u + 1, 17)).collect();
    let check = |x: f64| assert_eq!(from_f64(x), rounded(&dividing, x), "{x:e}");
    for p in (0..=u16::MAX).filter(|&p| p != NAR) {
        let real = if p == 0 { 0.0 } else { number_of(u32::from(p), 16) };
        let Real::Real(found) = to_f64(p) else { panic!("{p:#06x} is a real number") };
        assert_eq!(found.to_bits(), real.to_bits(), "{p:#06x}");
        near(real).into_iter().for_each(check);
    }
    assert_eq!(to_f64(NAR), Real::NaR);
    for x in [0.0, -0.0, f64::NAN, f64::INFINITY, f64::NEG_INFINITY, f64::MAX, f64::MIN, 5e-324, -5e-324] {
        check(x);
    }
    let mut noise = Noise(4);
    for _ in 0..ROUNDS {
        check(f64::from_bits(noise.next()));
        check((noise.next() as f64 - 2f64.powi(63)) * 2f64.powi(noise.below(60) as i32 - 90));
    }
    println!("65536 patterns to f64, and {} numbers from f64: as the rule's", 65535 * 3 + 9 + 2 * ROUNDS);
}

/// x with the `f64`s next to its bits.
fn near(x: f64) -> [f64; 3] {
    [x.to_bits().wrapping_sub(1), x.to_bits(), x.to_bits() + 1].map(f64::from_bits)
}

/// The span of p, which is not NaR: towards a neighbour as far as the posit of 17 bits between the two, towards zero as far as
/// that, and towards NaR without end; with the number there where the model rounds it to p.
fn model_span(dividing: &[f64], p: u16) -> Span {
    let edge = |neighbour: u16, between: u32| {
        let number = if p == 0 || neighbour == 0 { 0.0 } else { number_of(between, 17) };
        match rounded(dividing, number) == p {
            _ if neighbour == NAR => Bound::Unbounded,
            true => Bound::Included(number),
            false => Bound::Excluded(number),
        }
    };
    let wide = 2 * u32::from(p);
    Span {
        lower: edge(p.wrapping_sub(1), wide.wrapping_sub(1) & 0x1FFFF),
        upper: edge(p.wrapping_add(1), wide + 1),
    }
}

#[test]
fn spans() {
    let dividing: Vec<f64> = (1..0x7FFF).map(|u| number_of(2 * u + 1, 17)).collect();
    let (mut inside, mut outside) = (0, 0);
    for p in (0..=u16::MAX).filter(|&p| p != NAR) {
        let found = span(p).unwrap();
        assert_eq!(found, model_span(&dividing, p), "{p:#06x}");
        for x in [found.lower, found.upper].into_iter().flat_map(|edge| match edge {
            Bound::Included(x) | Bound::Excluded(x) => {
                assert!(x != 0.0 || x.is_sign_positive(), "{p:#06x}");
                near(x)
            }
            Bound::Unbounded => [f64::MAX, f64::MIN, f64::INFINITY],
        }) {
            assert_eq!(from_f64(x), rounded(&dividing, x), "{x:e}");
            assert_eq!(found.contains(x), from_f64(x) == p, "{p:#06x}, {x:e}");
            *(if found.contains(x) { &mut inside } else { &mut outside }) += 1;
        }
    }
    assert_eq!(span(NAR), None);
    let tiny = 2f64.powi(-40);
    for (x, p) in [(tiny, 0x0001), (-tiny, 0xFFFF), (5e-324, 0x0001), (1.0 / tiny, 0x7FFF), (f64::MAX, 0x7FFF), (f64::MIN, 0x8001), (-0.0, 0)] {
        let all: Vec<u16> = (0..=u16::MAX).filter(|&p| span(p).is_some_and(|span| span.contains(x))).collect();
        assert_eq!(all, [p], "{x:e}");
    }
    for x in [f64::NAN, f64::INFINITY, f64::NEG_INFINITY] {
        assert!((0..=u16::MAX).filter_map(span).all(|span| !span.contains(x)));
    }
    let mut noise = Noise(5);
    for _ in 0..ROUNDS {
        let x = f64::from_bits(noise.next());
        let p = from_f64(x);
        assert_eq!(span(p).is_some_and(|span| span.contains(x)), x.is_finite(), "{x:e}");
    }
    println!("65535 spans as the model's; {inside} f64s about their edges inside and {outside} outside, as they convert; {ROUNDS} random f64s each in its own");
}
