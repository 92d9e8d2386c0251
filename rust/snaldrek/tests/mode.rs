//! The caller's floating-point mode changes no answer, and is not changed.
#![cfg(target_arch = "x86_64")]
#![allow(unsafe_code)]

use snaldrek::calls;
use std::arch::asm;

/// All exceptions masked, to the nearest, nothing flushed to zero.
const DEFAULT: u32 = 0x1f80;

fn mode() -> u32 {
    let mut now = 0_u32;
    // SAFETY: it writes four bytes, and there they are.
    unsafe { asm!("stmxcsr [{}]", in(reg) &mut now, options(nostack)) };
    now
}

/// Judges a seal in this mode; the mode afterwards is handed back too. Between the two changes of mode
/// there is nothing that computes with floats but the call.
fn sealed_in(tried: u32, body: &[u8], gain: f64, pull: &mut f64) -> (u32, u32) {
    // SAFETY: the mode is one that the processor has, and the default comes back below. No Rust code computes with floats meanwhile.
    unsafe { asm!("ldmxcsr [{}]", in(reg) &tried, options(nostack)) };
    let answer = calls::seal(body, gain, 0.0, pull);
    let after = mode();
    // SAFETY: as above.
    unsafe { asm!("ldmxcsr [{}]", in(reg) &DEFAULT, options(nostack)) };
    (answer, after)
}

fn body(gate: u8, numbers: [f64; 3]) -> Vec<u8> {
    let bytes = numbers.iter().flat_map(|number| number.to_le_bytes());
    std::iter::once(gate).chain(bytes).collect()
}

#[test]
fn no_mode_changes_an_answer_or_is_changed() {
    let rounded = body(2, [0.3, 0.3, 0.1]);
    let flushed = body(1, [5e-324, 0.0, 0.0]);
    let passes = body(2, [1e-310, 1e-310, 1e-310]);
    for rounding in 0..4_u32 {
        for flushing in [0, 0x40, 0x8000, 0x8040] {
            let tried = DEFAULT | rounding << 13 | flushing;
            let mut pull = 7.0;
            assert_eq!(sealed_in(tried, &rounded, 3.0, &mut pull), (23, tried));
            assert_eq!(sealed_in(tried, &flushed, 1.0, &mut pull), (23, tried));
            assert_eq!(pull.to_bits(), 7.0_f64.to_bits());
            assert_eq!(sealed_in(tried, &passes, 1.0, &mut pull), (0, tried));
            assert_eq!(pull.to_bits(), 1e-310_f64.to_bits());
        }
    }
}
