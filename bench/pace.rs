//! Prints how many millions of additions a second the processor makes: fewer where another one shares its units.

use std::arch::asm;
use std::time::Instant;

const TURNS: u32 = 1_000_000;
const ADDITIONS: u32 = 12;

fn main() {
    let (mut a, mut b, mut c, mut d) = (0u64, 0u64, 0u64, 0u64);
    let begun = Instant::now();
    for _ in 0..TURNS {
        // Four sums, of which none waits for another one. The compiler must not count them together.
        unsafe {
            asm!(
                "add {0}, 1", "add {1}, 1", "add {2}, 1", "add {3}, 1",
                "add {0}, 1", "add {1}, 1", "add {2}, 1", "add {3}, 1",
                "add {0}, 1", "add {1}, 1", "add {2}, 1", "add {3}, 1",
                inout(reg) a, inout(reg) b, inout(reg) c, inout(reg) d,
            );
        }
    }
    let seconds = begun.elapsed().as_secs_f64();
    println!("{:.0}", f64::from(TURNS * ADDITIONS) / seconds / 1e6);
}
