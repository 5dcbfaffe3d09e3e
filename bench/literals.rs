// f64 to f32 on a million normal doubles: the library's function on bits beside the hardware instruction (Rust's `as`).
// One run, warmed up, medians of [RUNS], 31 where nothing is said.
use std::hint::black_box;

/// `struct timespec` of Linux on 64 bits.
#[repr(C)]
struct Time {
    seconds: i64,
    nanoseconds: i64,
}

/// CLOCK_THREAD_CPUTIME_ID of Linux: the processor's time of this thread, which stands still while others have it.
const THREAD: i32 = 3;

unsafe extern "C" {
    fn vireo_f64_to_f32(x: u64) -> u64;
    fn clock_gettime(clock: i32, time: *mut Time) -> i32;
}

/// Nanoseconds from some start.
fn now() -> f64 {
    let mut time = Time { seconds: 0, nanoseconds: 0 };
    // SAFETY: the C library writes one `struct timespec`, and `time` is one.
    let failed = unsafe { clock_gettime(THREAD, &mut time) };
    assert_eq!(failed, 0, "this system has no clock for a thread's time");
    time.seconds as f64 * 1e9 + time.nanoseconds as f64
}

const COUNT: usize = 1_000_000;
const RUNS: usize = 31;

fn splitmix(state: &mut u64) -> u64 {
    *state = state.wrapping_add(0x9e37_79b9_7f4a_7c15);
    let mut z = *state;
    z = (z ^ (z >> 30)).wrapping_mul(0xbf58_476d_1ce4_e5b9);
    z = (z ^ (z >> 27)).wrapping_mul(0x94d0_49bb_1331_11eb);
    z ^ (z >> 31)
}

/// Normal doubles whose f32 is normal too: exponents from -126 to 127, any sign and fraction.
fn doubles() -> Vec<u64> {
    let mut state = 1;
    (0..COUNT)
        .map(|_| {
            let r = splitmix(&mut state);
            let exponent = 1023 - 126 + (r >> 56) % 253;
            (r & 0x800f_ffff_ffff_ffff) | (exponent << 52)
        })
        .collect()
}

fn median_ns(runs: usize, mut pass: impl FnMut()) -> f64 {
    for _ in 0..3 {
        pass();
    }
    let mut times: Vec<f64> = (0..runs)
        .map(|_| {
            let start = now();
            pass();
            (now() - start) / COUNT as f64
        })
        .collect();
    times.sort_by(f64::total_cmp);
    times[runs / 2]
}

fn main() {
    let runs = std::env::args().nth(1).map_or(RUNS, |n| n.parse().expect("a number of runs")).max(1);
    let input = doubles();
    let mut out = vec![0u32; COUNT];
    let mut other = vec![0u32; COUNT];
    let ours = median_ns(runs, || {
        for (to, from) in out.iter_mut().zip(&input) {
            // numbers in, a number out: nothing is asked of the caller
            *to = unsafe { vireo_f64_to_f32(*from) } as u32;
        }
        black_box(&out);
    });
    let hardware = median_ns(runs, || {
        for (to, from) in other.iter_mut().zip(&input) {
            *to = (black_box(f64::from_bits(*from)) as f32).to_bits();
        }
        black_box(&other);
    });
    let loops = median_ns(runs, || {
        for (to, from) in other.iter_mut().zip(&input) {
            *to = (f64::from_bits(*from) as f32).to_bits();
        }
        black_box(&other);
    });
    assert!(out == other, "the two differ");
    println!("| f64 to f32 | ns each | on bits / this |\n| --- | --: | --: |");
    for (form, ns) in [
        ("on bits, one call each", ours),
        ("the hardware instruction, one at a time", hardware),
        ("Rust's `as`, a loop that the compiler may widen", loops),
    ] {
        println!("| {form:<47} | {ns:5.2} | {:4.1} |", ours / ns);
    }
    println!("\n{COUNT} normal doubles, medians of {runs} runs, in processor time; the same bits from all forms");
}
