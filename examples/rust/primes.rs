//! Prints the primes below 50 and a sum of 64 bits: a program without the standard library. `primes.rs` has all of it,
//! the services of the machine too.
#![no_std]
#![no_main]

use core::arch::asm;
use core::fmt::{self, Write};
use core::panic::PanicInfo;

/// The machine's output.
struct Output;

impl Write for Output {
    fn write_str(&mut self, text: &str) -> fmt::Result {
        let written: isize;
        unsafe {
            asm!("ecall", in("a7") 64, inlateout("a0") 1isize => written, in("a1") text.as_ptr(), in("a2") text.len());
        }
        if written == text.len() as isize {
            Ok(())
        } else {
            Err(fmt::Error)
        }
    }
}

/// A panic says where it was, and ends as `trapped breakpoint`.
#[panic_handler]
fn panicked(info: &PanicInfo) -> ! {
    let _ = writeln!(Output, "{info}");
    unsafe { asm!("ebreak", options(noreturn)) }
}

fn is_prime(n: u32) -> bool {
    n > 1 && (2..n).take_while(|d| d * d <= n).all(|d| n % d != 0)
}

fn print_primes() -> fmt::Result {
    let mut sum: u64 = 0;
    for n in (0..50).filter(|&n| is_prime(n)) {
        write!(Output, "{n} ")?;
        sum += u64::from(n).pow(7);
    }
    writeln!(Output, "\nsum of 7th powers {sum} = {sum:#x}")
}

/// Called by `start.S` of `examples/c`, which ends the program with the answer.
#[no_mangle]
pub extern "C" fn main() -> i32 {
    match print_primes() {
        Ok(()) => 0,
        Err(_) => 1,
    }
}
