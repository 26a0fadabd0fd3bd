//! The distances of bytes in plain Rust, timed as `bench_kernels distance` does: the words `bytes` D ROUNDS print a checksum and
//! the nanoseconds spent.
extern "C" {
    fn clock_gettime(clock: i32, time: *mut [i64; 2]) -> i32;
}

/// Nanoseconds of processor time that this process has used.
fn spent() -> i64 {
    let mut time = [0, 0];
    unsafe { clock_gettime(2, &mut time) };
    time[0] * 1_000_000_000 + time[1]
}

const WORDS: usize = 256;

fn dist(a: &[u8], b: &[u8]) -> u64 {
    let mut total: u32 = 0;
    for (x, y) in a.iter().zip(b) {
        let gap = u32::from(x.abs_diff(*y));
        total += gap * gap;
    }
    u64::from(total)
}

/// Numbers below 2^16, as `bench_common` gives them.
fn numbers(count: usize, start: u64) -> Vec<u16> {
    let mut state = start;
    (0..count)
        .map(|_| {
            state = state.wrapping_mul(6364136223846793005).wrapping_add(1442695040888963407);
            (state >> 48) as u16
        })
        .collect()
}

fn main() {
    let words: Vec<String> = std::env::args().skip(1).collect();
    let number = |i: usize| words.get(i).and_then(|w| w.parse::<u64>().ok()).unwrap_or(0);
    let (d, rounds) = (number(1) as usize, number(2));
    let start = spent();
    let bytes: Vec<u8> = numbers(d * WORDS, 1).iter().map(|n| (n % 256) as u8).collect();
    let mut x: Vec<u8> = numbers(d, 3).iter().map(|n| (n % 256) as u8).collect();
    let mut sum: u64 = 0;
    for round in 0..rounds {
        x[0] = (round % 256) as u8;
        sum = sum.wrapping_add(bytes.chunks(d).fold(0, |s, word| s.wrapping_add(dist(&x, word))));
    }
    println!("{sum} {}", spent() - start);
}
