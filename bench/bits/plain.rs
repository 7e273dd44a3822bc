//! The loops of main.rt.txt over plain integers: u64 and u128, with the same numbers and answers.
use std::hint::black_box;
use std::time::Instant;

const PAIRS: u32 = 1024;
const ROUNDS: u32 = 10_000;

macro_rules! loops {
    ($module:ident, $unsigned:ty, $signed:ty, $bits:expr) => {
        mod $module {
            use super::*;

            fn pairs(small: bool) -> Vec<($unsigned, $unsigned)> {
                let mut state: u128 = 0x0123_4567_89ab_cdef;
                (0..PAIRS)
                    .map(|_| {
                        state = state
                            .wrapping_mul(0xda94_2042_e4dd_58b5_5bd1_e995_9e37_79b9)
                            .wrapping_add(0x1405_7b7e_f767_814f);
                        let rhs = if small { state % 61 } else { state >> 37 };
                        ((state >> 1) as $unsigned, rhs as $unsigned)
                    })
                    .collect()
            }

            // `black_box` keeps the compiler from working on several pairs at once.
            fn report(name: &str, small: bool, apply: impl Fn($unsigned, $unsigned) -> $unsigned) {
                let pairs = pairs(small);
                let start = Instant::now();
                let mut sum: u128 = 0;
                for _ in 0..ROUNDS {
                    for (lhs, rhs) in &pairs {
                        sum = sum.wrapping_add(apply(black_box(*lhs), black_box(*rhs)) as u128);
                    }
                }
                let spent = start.elapsed().as_nanos();
                let calls = u64::from(PAIRS) * u64::from(ROUNDS);
                println!("{name} {} {spent} {calls} {sum}", $bits);
            }

            pub fn reports() {
                report("add", false, |a, b| a.wrapping_add(b));
                report("mul", false, |a, b| a.wrapping_mul(b));
                report("udiv", false, |a, b| a.checked_div(b).unwrap_or(<$unsigned>::MAX));
                report("sdiv", false, |a, b| {
                    let (a, b) = (a as $signed, b as $signed);
                    let by_zero = if a < 0 { 1 } else { -1 };
                    (if b == 0 { by_zero } else { a.wrapping_div(b) }) as $unsigned
                });
                report("shl", true, |a, b| if b < $bits { a << b } else { 0 });
                report("slt", false, |a, b| ((a as $signed) < (b as $signed)) as $unsigned);
            }
        }
    };
}

loops!(narrow, u64, i64, 64);
loops!(wide, u128, i128, 128);

fn main() {
    narrow::reports();
    wide::reports();
}
