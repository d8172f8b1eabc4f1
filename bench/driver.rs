// The ten functions of softposit 0.4.0 and those of balehasp on the same inputs, called one by one through pointers of one
// type, in three orders; then the batch and the listing beside plain loops over the Rust functions; then the listing in pieces, the
// operations, the turn and the functions by number, without the side and with it, which have no Rust beside them. Prints nanoseconds
// a call, a pattern or a byte, the median of several runs that take turns, and the ratio. The clock is the thread's own, which stands still while
// other programs have the processor. With the words `count SIDE WORK` one side does one thing once and nothing is printed, for a
// tool that counts instructions.
//
// Compiled with cfg(before) the other side is not the Rust but another archive of balehasp, libbefore.a, whose entries' names
// begin with other_ in place of balehasp_; then batch, listing, operations and turn have theirs beside them too.
#[cfg(not(before))]
mod original;

use std::hint::black_box;

type Function = extern "C" fn(u16) -> u16;
type Operation = extern "C" fn(u16, u16) -> u16;
type Turn = unsafe extern "C" fn(u16, u16, u16, *const [u16; 3], *mut [u16; 3]);
type Batch = unsafe extern "C" fn(u16, *const u16, usize, *mut u16, usize, usize, usize, *mut usize, *mut usize) -> u16;
type Listing = unsafe extern "C" fn(*const u8, usize, *mut u8, usize, *mut usize) -> u16;

// What an archive has beside the ten functions.
#[derive(Clone, Copy)]
struct Calls {
    operations: [Operation; 3],
    turn: Turn,
    batch: Batch,
    listing: Listing,
}

macro_rules! archive {
    ($link:literal $calls:ident: $($function:ident)*; $add:ident $subtract:ident $multiply:ident $turn:ident $batch:ident $listing:ident) => {
        #[link(name = $link, kind = "static")]
        unsafe extern "C" {
            $(safe fn $function(p: u16) -> u16;)*
            safe fn $add(a: u16, b: u16) -> u16;
            safe fn $subtract(a: u16, b: u16) -> u16;
            safe fn $multiply(a: u16, b: u16) -> u16;
            fn $turn(heading: u16, pitch: u16, roll: u16, arm: *const [u16; 3], turned: *mut [u16; 3]);
            fn $batch(function: u16, input: *const u16, inputs: usize, output: *mut u16, outputs: usize, start: usize, limit: usize, next: *mut usize, nars: *mut usize) -> u16;
            fn $listing(input: *const u8, inputs: usize, output: *mut u8, outputs: usize, written: *mut usize) -> u16;
        }
        const $calls: Calls = Calls { operations: [$add, $subtract, $multiply], turn: $turn, batch: $batch, listing: $listing };
    };
}

macro_rules! sides {
    ($($name:ident $theirs:ident $ours:ident)*) => {
        $(
            #[cfg(not(before))]
            #[inline(never)]
            extern "C" fn $theirs(p: u16) -> u16 {
                original::P16E1::from_bits(p).$name().to_bits()
            }
        )*
        #[cfg(before)]
        archive! { "before" BEFORE: $($theirs)*; other_add other_subtract other_multiply other_turn other_batch other_listing }
        archive! { "balehasp" OURS: $($ours)*; balehasp_add balehasp_subtract balehasp_multiply balehasp_turn balehasp_batch balehasp_listing }
        const FUNCTIONS: [(&str, Function, Function); 10] = [$((stringify!($name), $theirs, $ours)),*];
    };
}

sides! {
    exp other_exp balehasp_exp
    exp2 other_exp2 balehasp_exp2
    ln other_ln balehasp_ln
    log2 other_log2 balehasp_log2
    sin_pi other_sin_pi balehasp_sin_pi
    cos_pi other_cos_pi balehasp_cos_pi
    tan_pi other_tan_pi balehasp_tan_pi
    atan_pi other_atan_pi balehasp_atan_pi
    asin_pi other_asin_pi balehasp_asin_pi
    acos_pi other_acos_pi balehasp_acos_pi
}

// What the other side has beside the ten functions: of the Rust nothing.
#[cfg(before)]
const THEIRS: Option<Calls> = Some(BEFORE);
#[cfg(not(before))]
const THEIRS: Option<Calls> = None;

unsafe extern "C" {
    fn balehasp_answer(function: u16, p: u16, answer: *mut u16) -> u16;
    fn balehasp_sided(function: u16, p: u16, answer: *mut u16, side: *mut i8) -> u16;
    fn balehasp_piece(state: *mut [u8; 2076], piece: *const u8, length: usize) -> u16;
}

// Nanoseconds that this thread has run.
fn now() -> i64 {
    const CLOCK_THREAD_CPUTIME_ID: i32 = 3;
    let mut time = [0_i64; 2];
    // SAFETY: on 64-bit Linux a timespec is two 64-bit numbers.
    let failed = unsafe { clock_gettime(CLOCK_THREAD_CPUTIME_ID, &mut time) };
    assert_eq!(failed, 0);
    time[0] * 1_000_000_000 + time[1]
}

unsafe extern "C" {
    fn clock_gettime(clock: i32, time: &mut [i64; 2]) -> i32;
}

const RUNS: usize = 31;
const SWEEPS: usize = 4;
const NAR: u16 = 0x8000;

#[inline(never)]
fn sweep(f: Function, inputs: &[u16]) -> u64 {
    inputs.iter().map(|&p| u64::from(f(p))).sum()
}

// The batch of the other side, or a plain loop where it has none.
#[inline(never)]
fn their_batch(function: usize, input: &[u16], output: &mut [u16]) -> usize {
    if let Some(calls) = THEIRS {
        return batch_of(calls.batch, function, input, output);
    }
    let f = FUNCTIONS[function - 1].1;
    let mut nars = 0;
    for (place, &p) in output.iter_mut().zip(input) {
        *place = f(p);
        nars += usize::from(*place == NAR);
    }
    nars
}

fn our_batch(function: usize, input: &[u16], output: &mut [u16]) -> usize {
    batch_of(OURS.batch, function, input, output)
}

fn batch_of(batch: Batch, function: usize, input: &[u16], output: &mut [u16]) -> usize {
    let (mut next, mut nars) = (0, 0);
    // SAFETY: each pointer comes with the length of its own slice, and the two slices are apart.
    let refusal =
        unsafe { batch(function as u16, input.as_ptr(), input.len(), output.as_mut_ptr(), output.len(), 0, usize::MAX, &mut next, &mut nars) };
    assert!(refusal == 0 && next == input.len());
    nars
}

fn number_at(bytes: &[u8], at: usize) -> u16 {
    u16::from_le_bytes([bytes[at], bytes[at + 1]])
}

// Each pattern with the one after it.
#[inline(never)]
fn operate(f: Operation, inputs: &[u16]) -> u64 {
    inputs.windows(2).map(|two| u64::from(f(two[0], two[1]))).sum()
}

// Each six patterns in a row: three angles and an arm.
#[inline(never)]
fn turns(turn: Turn, inputs: &[u16]) -> u64 {
    let mut turned = [0; 3];
    inputs
        .windows(6)
        .map(|six| {
            // SAFETY: both places live through the call and are apart.
            unsafe { turn(six[0], six[1], six[2], &[six[3], six[4], six[5]], &mut turned) };
            turned.iter().map(|&part| u64::from(part)).sum::<u64>()
        })
        .sum()
}

// A listing that is in order, answered by the other side, or by plain loops where it has no such call.
#[inline(never)]
fn their_listing(input: &[u8], output: &mut [u8]) -> usize {
    if let Some(calls) = THEIRS {
        return listing_of_bytes(calls.listing, input, output);
    }
    let functions = usize::from(number_at(input, 0));
    let from = 2 + 2 * functions + 2;
    let patterns = usize::from(number_at(input, from - 2));
    output[..input.len()].copy_from_slice(input);
    let (_, rest) = output.split_at_mut(input.len());
    rest[..2].copy_from_slice(&((functions * patterns) as u16).to_le_bytes());
    for i in 0..functions {
        let f = FUNCTIONS[usize::from(number_at(input, 2 + 2 * i)) - 1].1;
        for j in 0..patterns {
            let at = 2 + 2 * (i * patterns + j);
            rest[at..at + 2].copy_from_slice(&f(number_at(input, from + 2 * j)).to_le_bytes());
        }
    }
    input.len() + 2 + 2 * functions * patterns
}

fn our_listing(input: &[u8], output: &mut [u8]) -> usize {
    listing_of_bytes(OURS.listing, input, output)
}

fn listing_of_bytes(listing: Listing, input: &[u8], output: &mut [u8]) -> usize {
    let mut written = 0;
    // SAFETY: as in `batch_of`.
    let refusal = unsafe { listing(input.as_ptr(), input.len(), output.as_mut_ptr(), output.len(), &mut written) };
    assert!(refusal == 0);
    written
}

// A linear congruential generator, the same in every run.
struct Chance(u64);

impl Chance {
    // A number below n.
    fn below(&mut self, n: usize) -> usize {
        self.0 = self.0.wrapping_mul(6_364_136_223_846_793_005).wrapping_add(1_442_695_040_888_963_407);
        (self.0 >> 33) as usize % n
    }
}

// All patterns, shuffled.
fn shuffled() -> Vec<u16> {
    let mut order: Vec<u16> = (0..=u16::MAX).collect();
    let mut chance = Chance(20_261_115);
    for i in (1..order.len()).rev() {
        order.swap(i, chance.below(i + 1));
    }
    order
}

// Patterns as readings drift: walks that start anywhere, each step up to 50 patterns either way. The pattern after 0xFFFF is 0.
fn drifting() -> Vec<u16> {
    const WALKS: usize = 256;
    const STEPS: usize = 256;
    const FARTHEST: u16 = 50;
    let mut chance = Chance(20_261_116);
    let mut readings = Vec::new();
    for _ in 0..WALKS {
        let mut p = chance.below(65_536) as u16;
        for _ in 0..STEPS {
            readings.push(p);
            p = p.wrapping_add(chance.below(usize::from(2 * FARTHEST + 1)) as u16).wrapping_sub(FARTHEST);
        }
    }
    readings
}

fn listing_of(patterns: &[u16]) -> Vec<u8> {
    let mut numbers = vec![10];
    numbers.extend(1..=10);
    numbers.push(patterns.len() as u16);
    numbers.extend(patterns);
    numbers.iter().flat_map(|n| n.to_le_bytes()).collect()
}

fn median(mut times: Vec<f64>) -> f64 {
    times.sort_by(f64::total_cmp);
    times[times.len() / 2]
}

// Nanoseconds a unit of work for the other side and for balehasp, which take turns and must agree on what they return.
fn pair<T: PartialEq + std::fmt::Debug>(units: usize, mut theirs: impl FnMut() -> T, mut ours: impl FnMut() -> T) -> (f64, f64) {
    assert_eq!(theirs(), ours());
    let mut times = (Vec::new(), Vec::new());
    let clock = |work: &mut dyn FnMut() -> T| {
        let began = now();
        for _ in 0..SWEEPS {
            black_box(work());
        }
        (now() - began) as f64 / (SWEEPS * units) as f64
    };
    for _ in 0..RUNS {
        times.0.push(clock(&mut theirs));
        times.1.push(clock(&mut ours));
    }
    (median(times.0), median(times.1))
}

fn line(what: &str, (theirs, ours): (f64, f64)) {
    println!("{what:<34} {theirs:>8.2} {ours:>8.2} {:>7.2}", ours / theirs);
}

// What the other side may have or not.
fn beside<T: PartialEq + std::fmt::Debug>(what: &str, units: usize, of: impl Fn(&Calls) -> T) {
    match THEIRS {
        Some(theirs) => line(what, pair(units, || of(&theirs), || of(&OURS))),
        None => alone(what, units, || of(&OURS)),
    }
}

fn alone<T: PartialEq + std::fmt::Debug>(what: &str, units: usize, work: impl Fn() -> T) {
    println!("{what:<34} {:>8} {:>8.2}", "", pair(units, &work, &work).1);
}

fn operations(order: &str, inputs: &[u16]) {
    for (i, name) in ["add", "subtract", "multiply"].into_iter().enumerate() {
        beside(&format!("{name}, {order}"), inputs.len() - 1, |calls| operate(calls.operations[i], inputs));
    }
    beside(&format!("turn, {order}"), inputs.len() - 5, |calls| turns(calls.turn, inputs));
}

// All ten by their numbers, function by function.
fn by_number(order: &str, inputs: &[u16]) {
    let each = |call: &dyn Fn(u16, u16) -> i64| (1..=10).map(|f| inputs.iter().map(|&p| call(f, p)).sum::<i64>()).sum::<i64>();
    alone(&format!("answer, {order}"), 10 * inputs.len(), || {
        each(&|f, p| {
            let mut answer = 0;
            // SAFETY: the place lives through the call.
            unsafe { balehasp_answer(f, p, &mut answer) };
            i64::from(answer)
        })
    });
    alone(&format!("sided, {order}"), 10 * inputs.len(), || {
        each(&|f, p| {
            let (mut answer, mut side) = (0, 0);
            // SAFETY: both places live through the call and do not overlap.
            unsafe { balehasp_sided(f, p, &mut answer, &mut side) };
            i64::from(answer) + i64::from(side)
        })
    });
}

fn functions(order: &str, inputs: &[u16]) {
    let mut sums = (0.0, 0.0);
    for (name, theirs, ours) in FUNCTIONS {
        let times = pair(inputs.len(), || sweep(theirs, inputs), || sweep(ours, inputs));
        line(&format!("{name}, {order}"), times);
        sums = (sums.0 + times.0, sums.1 + times.1);
    }
    line(&format!("all ten, {order}"), (sums.0 / 10.0, sums.1 / 10.0));
}

fn batches(inputs: &[u16]) {
    let mut output = (vec![0; inputs.len()], vec![0; inputs.len()]);
    let times = pair(
        10 * inputs.len(),
        || (1..=10).map(|f| their_batch(f, inputs, &mut output.0)).sum::<usize>(),
        || (1..=10).map(|f| our_batch(f, inputs, &mut output.1)).sum::<usize>(),
    );
    line(&format!("batch, ten times {} patterns", inputs.len()), times);
}

fn listings(patterns: &[u16]) {
    let input = listing_of(patterns);
    let length = input.len() + 2 + 20 * patterns.len();
    let mut output = (vec![0; length], vec![0; length]);
    let times = pair(10 * patterns.len(), || their_listing(&input, &mut output.0), || our_listing(&input, &mut output.1));
    line(&format!("listing, 10 by {}", patterns.len()), times);
    assert_eq!(output.0, output.1);
}

// The longest listing in pieces of one size, to its last byte.
fn in_pieces(patterns: &[u16]) {
    let input = listing_of(patterns);
    for size in [1, 16, 256] {
        alone(&format!("pieces of {size}, {} bytes", input.len()), input.len(), || {
            let mut state = [0; 2076];
            for piece in input.chunks(size) {
                // SAFETY: the state and the piece live through the call and are apart.
                assert_eq!(unsafe { balehasp_piece(&mut state, piece.as_ptr(), piece.len()) }, 0);
            }
            state
        });
    }
}

fn count(side: &str, work: &str, inputs: &[u16]) {
    let rust = side == "rust";
    let mut output = vec![0; inputs.len()];
    let listing = listing_of(&inputs[..1024]);
    let mut answered = vec![0; listing.len() + 2 + 20 * 1024];
    match work {
        "none" => (),
        "batch" => (1..=10).for_each(|f| {
            black_box(if rust { their_batch(f, inputs, &mut output) } else { our_batch(f, inputs, &mut output) });
        }),
        "listing" => {
            black_box(if rust { their_listing(&listing, &mut answered) } else { our_listing(&listing, &mut answered) });
        }
        _ => {
            let (_, theirs, ours) = FUNCTIONS.into_iter().find(|(name, ..)| *name == work).expect("a function's name");
            black_box(sweep(if rust { theirs } else { ours }, inputs));
        }
    }
}

fn main() {
    let random = shuffled();
    let words: Vec<String> = std::env::args().collect();
    if let [_, count_it, side, work] = &words[..] {
        assert_eq!(count_it, "count");
        return count(side, work, &random);
    }
    let in_order: Vec<u16> = (0..=u16::MAX).collect();
    let drifting = drifting();
    println!("{:<34} {:>8} {:>8} {:>7}", "ns a call", if THEIRS.is_some() { "before" } else { "Rust" }, "balehasp", "ratio");
    functions("in order", &in_order);
    functions("random order", &random);
    functions("drifting", &drifting);
    for length in [4_096, 16_384, 65_536] {
        batches(&random[..length]);
    }
    listings(&random[..1024]);
    in_pieces(&random[..1024]);
    operations("in order", &in_order);
    operations("random order", &random);
    operations("drifting", &drifting);
    by_number("in order", &in_order);
    by_number("random order", &random);
    by_number("drifting", &drifting);
}
