//! Seals of every kind: readings that are no number, ends of gates, products
//! that overflow, and seals that cannot be read.

use crate::random::Random;
use crate::seal::{seal_bytes, Calibration, Gate, Seal};

/// Numbers where arithmetic and comparison go wrong most easily.
const ODD_BITS: [u64; 28] = [
    0x0000_0000_0000_0000, // zero
    0x8000_0000_0000_0000, // minus zero
    0x0000_0000_0000_0001, // the least subnormal
    0x8000_0000_0000_0001,
    0x000f_ffff_ffff_ffff, // the greatest subnormal
    0x800f_ffff_ffff_ffff,
    0x0010_0000_0000_0000, // the least normal
    0x8010_0000_0000_0000,
    0x7fef_ffff_ffff_ffff, // the greatest finite
    0xffef_ffff_ffff_ffff,
    0x7fe0_0000_0000_0000, // 2^1023
    0x7ff0_0000_0000_0000, // infinity
    0xfff0_0000_0000_0000,
    0x7ff8_0000_0000_0000, // quiet, no number
    0xfff8_0000_0000_0000,
    0x7ff0_0000_0000_0001, // signalling, no number
    0xfff0_0000_0000_0001,
    0x7ff7_ffff_ffff_ffff,
    0x7fff_ffff_ffff_ffff,
    0xffff_ffff_ffff_ffff,
    0x3ff0_0000_0000_0000, // one
    0xbff0_0000_0000_0000,
    0x3fef_ffff_ffff_ffff, // just below one
    0x3ff0_0000_0000_0001, // just above one
    0x3fe0_0000_0000_0000, // a half
    0x4049_8000_0000_0000, // 51
    0x4059_0000_0000_0000, // 100
    0x4340_0000_0000_0001, // beyond 2^53
];

/// One kind of seal: the body of an `S` entry.
pub type Kind = fn(&mut Random) -> Vec<u8>;

/// All kinds.
pub const KINDS: &[Kind] = &[
    all_random,
    all_odd,
    at_an_end,
    just_outside,
    overflowing,
    not_finite,
    rounded_twice,
    // The readings that document 01 names, and their neighbours.
    |_| of(0.5, 1.0, Gate::AtLeast(51.0), 100.0),
    |_| of(0.5, 1.0, Gate::Between(40.0, 50.0), 100.0),
    |_| of(1.0, -0.0, Gate::AtLeast(0.0), -0.0),
    |_| of(1.0, 0.0, Gate::Between(0.0, -0.0), -0.0),
    |_| of(1.0, 0.0, Gate::Between(1.0, BELOW_ONE), 1.0),
    |_| of(1.0, 0.0, Gate::AtLeast(f64::NEG_INFINITY), 1.0),
    |_| of(0.5, 0.0, Gate::None, TINY),
    |_| of(0.75, 0.0, Gate::AtLeast(TINY), TINY),
    // A pull that is no number at every gate, and one beyond all numbers.
    |_| of(1.0, 0.0, Gate::None, f64::NAN),
    |_| of(1.0, 0.0, Gate::AtLeast(-1.0), f64::NAN),
    |_| of(1.0, 0.0, Gate::Between(-1.0, 1.0), f64::NAN),
    |_| of(1.0, 0.0, Gate::AtLeast(-1.0), f64::INFINITY),
    // Limits that are no number.
    |_| of(1.0, 0.0, Gate::AtLeast(f64::NAN), 1.0),
    |_| of(1.0, 0.0, Gate::Between(f64::NAN, 2.0), 1.0),
    |_| of(1.0, 0.0, Gate::Between(0.0, f64::NAN), 1.0),
    // An unused limit that is not zero bytes, and unknown gate kinds.
    |random| unreadable(random, 0, MINUS_ZERO, 0),
    |random| unreadable(random, 0, 0, MINUS_ZERO),
    |random| unreadable(random, 1, 0, MINUS_ZERO),
    |random| unreadable(random, 1, 0, 1),
    |random| unreadable(random, 3, 0, 0),
    |random| unreadable(random, 255, 0, 0),
    unknown_gate,
];

const MINUS_ZERO: u64 = 1 << 63;
const BELOW_ONE: f64 = 1.0f64.next_down();
const TINY: f64 = f64::from_bits(1);

fn body(calibration: Calibration, seal: &[u8]) -> Vec<u8> {
    let mut body = calibration.gain.to_le_bytes().to_vec();
    body.extend(calibration.offset.to_le_bytes());
    body.extend(seal);
    body
}

fn of(gain: f64, offset: f64, gate: Gate, raw: f64) -> Vec<u8> {
    body(Calibration { gain, offset }, &Seal { gate, raw }.to_bytes())
}

fn odd(random: &mut Random) -> f64 {
    f64::from_bits(*random.pick(&ODD_BITS))
}

/// A middling number with a few digits.
fn middling(random: &mut Random) -> f64 {
    (random.below(200_001) as f64 - 100_000.0) / 64.0
}

/// A middling number that needs all of its bits.
fn fine(random: &mut Random) -> f64 {
    middling(random) * (1.0 + random.u64() as f64 / u64::MAX as f64)
}

fn gate_of(random: &mut Random, low: f64, high: f64) -> Gate {
    *random.pick(&[
        Gate::None,
        Gate::AtLeast(low),
        Gate::Between(low, high),
        Gate::Between(high, low),
    ])
}

fn all_random(random: &mut Random) -> Vec<u8> {
    let [gain, offset, low, high, raw] = std::array::from_fn(|_| f64::from_bits(random.u64()));
    let gate = gate_of(random, low, high);
    of(gain, offset, gate, raw)
}

fn all_odd(random: &mut Random) -> Vec<u8> {
    let [gain, offset, low, high, raw] = std::array::from_fn(|_| odd(random));
    let gate = gate_of(random, low, high);
    match random.below(3) {
        0 => of(gain, offset, gate, raw),
        1 => of(1.0, 0.0, gate, raw),
        _ => of(1.0, -0.0, gate, raw),
    }
}

/// Gates whose ends are the pull, the next number up, or the next one down.
fn at_an_end(random: &mut Random) -> Vec<u8> {
    let (gain, offset, raw) = (fine(random), fine(random), fine(random));
    let pull = Calibration { gain, offset }.pull(raw);
    let ends = [pull, pull.next_up(), pull.next_down(), -pull, 0.0, -0.0];
    let (one, other) = (*random.pick(&ends), *random.pick(&ends));
    let gate = gate_of(random, one, other);
    of(gain, offset, gate, raw)
}

/// Gates that the pull misses by the least there is.
fn just_outside(random: &mut Random) -> Vec<u8> {
    let (gain, offset, raw) = (fine(random), fine(random), fine(random));
    let pull = Calibration { gain, offset }.pull(raw);
    let gate = *random.pick(&[
        Gate::AtLeast(pull.next_up()),
        Gate::Between(pull.next_up(), f64::MAX),
        Gate::Between(f64::MIN, pull.next_down()),
    ]);
    of(gain, offset, gate, raw)
}

/// Products beyond the greatest number, and sums that bring them back or
/// would have if nothing had been rounded.
fn overflowing(random: &mut Random) -> Vec<u8> {
    let offsets = [0.0, f64::MAX, f64::MIN, f64::INFINITY, f64::NEG_INFINITY];
    let offset = *random.pick(&offsets);
    let (gain, raw) = *random.pick(&[
        (2.0, f64::MAX),
        (f64::MAX, f64::MAX),
        (-1.5, f64::MAX),
        (1.0, f64::MAX),
        (-1.0, f64::MAX),
        (0.0, f64::INFINITY),
        (f64::INFINITY, 0.0),
        (f64::MIN_POSITIVE, f64::MIN_POSITIVE),
    ]);
    let gate = gate_of(random, -1.0, 1.0);
    of(gain, offset, gate, raw)
}

/// Readings that are no number or too great, at gates that are sound.
fn not_finite(random: &mut Random) -> Vec<u8> {
    let gate = *random.pick(&[Gate::None, Gate::AtLeast(-1.0), Gate::Between(-1.0, 1.0)]);
    let raw = f64::from_bits(*random.pick(&ODD_BITS[11..20]));
    let gain = *random.pick(&[1.0, -0.5, 0.0, f64::MAX]);
    of(gain, middling(random), gate, raw)
}

/// Readings where a product that is not rounded would give another pull:
/// (1 + a)(1 + b) - (1 + a + b) is nothing here, and a times b exactly.
fn rounded_twice(random: &mut Random) -> Vec<u8> {
    let step = f64::EPSILON * 1024.0;
    let (a, b) = (
        step * (1 + random.below(1000)) as f64,
        step * (1 + random.below(1000)) as f64,
    );
    let offset = -(1.0 + (a + b));
    let gate = *random.pick(&[
        Gate::AtLeast(f64::MIN_POSITIVE),
        Gate::Between(0.0, 0.0),
        Gate::None,
    ]);
    of(1.0 + a, offset, gate, 1.0 + b)
}

/// A seal that cannot be read, with any reading.
fn unreadable(random: &mut Random, kind: u8, low: u64, high: u64) -> Vec<u8> {
    let raw = odd(random).to_bits();
    body(Calibration::PLAIN, &seal_bytes(kind, low, high, raw))
}

fn unknown_gate(random: &mut Random) -> Vec<u8> {
    let kind = 3 + random.below(253) as u8;
    let [low, high] = std::array::from_fn(|_| odd(random).to_bits());
    unreadable(random, kind, low, high)
}
