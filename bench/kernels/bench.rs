//! Times each kernel on columns of 4,096 numbers beside the plain loop that rustc builds, side by side
//! in one run, and prints the best time of each and their ratio.

use std::hint::black_box;
use std::time::{Duration, Instant};

unsafe extern "C" {
    fn kernels_and_compare(
        col: *const i64,
        col_len: usize,
        code: u32,
        c: i64,
        mask: *mut bool,
        mask_len: usize,
    );
    fn kernels_count_true(mask: *const bool, len: usize) -> usize;
    fn kernels_least(col: *const i64, len: usize) -> i64;
    fn kernels_greatest(col: *const i64, len: usize) -> i64;
    fn kernels_mix_into(codes: *const u32, codes_len: usize, out: *mut u32, out_len: usize);
    fn kernels_equal_into(
        targets: *const u32,
        targets_len: usize,
        t: u32,
        mask: *mut bool,
        mask_len: usize,
    );
}

const ROWS: usize = 4096;
const CALLS: u32 = 64;
const ROUNDS: u32 = 400;

fn compares(code: u32, a: i64, b: i64) -> bool {
    match code {
        0 => a == b,
        1 => a != b,
        2 => a < b,
        3 => a <= b,
        4 => a > b,
        _ => a >= b,
    }
}

#[inline(never)]
fn plain_and_compare(col: &[i64], code: u32, c: i64, mask: &mut [bool]) {
    fn narrow(col: &[i64], mask: &mut [bool], test: impl Fn(i64) -> bool) {
        for (place, number) in mask.iter_mut().zip(col) {
            *place = *place && test(*number);
        }
    }
    match code {
        0 => narrow(col, mask, |x| x == c),
        1 => narrow(col, mask, |x| x != c),
        2 => narrow(col, mask, |x| x < c),
        3 => narrow(col, mask, |x| x <= c),
        4 => narrow(col, mask, |x| x > c),
        _ => narrow(col, mask, |x| x >= c),
    }
}

#[inline(never)]
fn plain_count_true(mask: &[bool]) -> usize {
    mask.iter().filter(|place| **place).count()
}

#[inline(never)]
fn plain_least(col: &[i64]) -> i64 {
    col.iter().copied().min().unwrap_or(0)
}

#[inline(never)]
fn plain_greatest(col: &[i64]) -> i64 {
    col.iter().copied().max().unwrap_or(0)
}

fn murmur_hash(code: u32) -> u32 {
    let k = code
        .wrapping_mul(0xcc9e_2d51)
        .rotate_left(15)
        .wrapping_mul(0x1b87_3593);
    let mut h = k.rotate_left(13).wrapping_mul(5).wrapping_add(0xe654_6b64) ^ 4;
    h = (h ^ (h >> 16)).wrapping_mul(0x85eb_ca6b);
    h = (h ^ (h >> 13)).wrapping_mul(0xc2b2_ae35);
    h ^= h >> 16;
    if h == 0x8000_0000 {
        0
    } else {
        (h as i32).unsigned_abs()
    }
}

#[inline(never)]
fn plain_mix_into(codes: &[u32], out: &mut [u32]) {
    for (place, code) in out.iter_mut().zip(codes) {
        *place = murmur_hash(*code);
    }
}

#[inline(never)]
fn plain_equal_into(targets: &[u32], t: u32, mask: &mut [bool]) {
    for (place, target) in mask.iter_mut().zip(targets) {
        *place = *target == t;
    }
}

fn timed(call: &mut dyn FnMut()) -> Duration {
    let start = Instant::now();
    for _ in 0..CALLS {
        call();
    }
    start.elapsed()
}

/// The best time of a call of each, in nanoseconds, taken in turn.
fn race(name: &str, kernel: &mut dyn FnMut(), plain: &mut dyn FnMut()) {
    let (mut best_kernel, mut best_plain) = (Duration::MAX, Duration::MAX);
    for _ in 0..ROUNDS {
        best_kernel = best_kernel.min(timed(kernel));
        best_plain = best_plain.min(timed(plain));
    }
    let per_call = |best: Duration| best.as_nanos() as f64 / f64::from(CALLS);
    let (kernel, plain) = (per_call(best_kernel), per_call(best_plain));
    println!(
        "| {name} | {kernel:.0} | {plain:.0} | {:.2} |",
        plain / kernel
    );
}

fn main() {
    let mut state = 0x9e37_79b9_7f4a_7c15u64;
    let mut next = || {
        state ^= state << 13;
        state ^= state >> 7;
        state ^= state << 17;
        state
    };
    let col: Vec<i64> = (0..ROWS).map(|_| next() as i64 >> 20).collect();
    let codes: Vec<u32> = (0..ROWS).map(|_| next() as u32).collect();
    let targets: Vec<u32> = codes.iter().map(|code| code % 4).collect();
    let places: Vec<bool> = codes.iter().map(|code| code % 3 != 0).collect();
    let (mut ours, mut theirs) = (places.clone(), places.clone());
    let (mut our_mixes, mut their_mixes) = (vec![0u32; ROWS], vec![0u32; ROWS]);

    println!("| Kernel | Kernel, ns | Plain loop, ns | Plain / kernel |");
    println!("|---|---|---|---|");
    for (code, name) in ["Eq", "Ne", "Lt", "Le", "Gt", "Ge"].iter().enumerate() {
        let (code, c) = (code as u32, col[7]);
        ours.copy_from_slice(&places);
        theirs.copy_from_slice(&places);
        race(
            &format!("`and_compare` {name}"),
            &mut || unsafe {
                kernels_and_compare(
                    black_box(col.as_ptr()),
                    ROWS,
                    code,
                    c,
                    ours.as_mut_ptr(),
                    ROWS,
                )
            },
            &mut || plain_and_compare(black_box(&col), code, c, &mut theirs),
        );
        let wanted = (0..ROWS).all(|i| ours[i] == (places[i] && compares(code, col[i], c)));
        assert!(wanted && ours == theirs);
    }
    race(
        "`count_true`",
        &mut || {
            black_box(unsafe { kernels_count_true(black_box(places.as_ptr()), ROWS) });
        },
        &mut || {
            black_box(plain_count_true(black_box(&places)));
        },
    );
    assert_eq!(
        unsafe { kernels_count_true(places.as_ptr(), ROWS) },
        plain_count_true(&places)
    );
    race(
        "`least`",
        &mut || {
            black_box(unsafe { kernels_least(black_box(col.as_ptr()), ROWS) });
        },
        &mut || {
            black_box(plain_least(black_box(&col)));
        },
    );
    assert_eq!(
        unsafe { kernels_least(col.as_ptr(), ROWS) },
        plain_least(&col)
    );
    race(
        "`greatest`",
        &mut || {
            black_box(unsafe { kernels_greatest(black_box(col.as_ptr()), ROWS) });
        },
        &mut || {
            black_box(plain_greatest(black_box(&col)));
        },
    );
    assert_eq!(
        unsafe { kernels_greatest(col.as_ptr(), ROWS) },
        plain_greatest(&col)
    );
    race(
        "`mix_into`",
        &mut || unsafe {
            kernels_mix_into(
                black_box(codes.as_ptr()),
                ROWS,
                our_mixes.as_mut_ptr(),
                ROWS,
            )
        },
        &mut || plain_mix_into(black_box(&codes), &mut their_mixes),
    );
    assert_eq!(our_mixes, their_mixes);
    race(
        "`equal_into`",
        &mut || unsafe {
            kernels_equal_into(
                black_box(targets.as_ptr()),
                ROWS,
                2,
                ours.as_mut_ptr(),
                ROWS,
            )
        },
        &mut || plain_equal_into(black_box(&targets), 2, &mut theirs),
    );
    assert_eq!(ours, theirs);
}
