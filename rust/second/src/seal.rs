//! The wire's pull and the gate that it must pass.

use crate::answer::Answer;
use crate::bytes::Reader;

/// The length of a seal in a bag.
pub const SEAL_BYTES: usize = 25;

/// The scanner's calibration.
#[derive(Clone, Copy, Debug, PartialEq)]
pub struct Calibration {
    /// What a raw reading is multiplied by.
    pub gain: f64,
    /// What is then added.
    pub offset: f64,
}

impl Calibration {
    /// Gain 1, offset 0.
    pub const PLAIN: Calibration = Calibration {
        gain: 1.0,
        offset: 0.0,
    };

    /// The pull of a raw reading: a product, rounded, then a sum, rounded.
    pub fn pull(self, raw: f64) -> f64 {
        let product = raw * self.gain;
        product + self.offset
    }
}

/// What the pull must satisfy.
#[derive(Clone, Copy, Debug, PartialEq)]
pub enum Gate {
    /// Nothing.
    None,
    /// At least a limit.
    AtLeast(f64),
    /// Between two limits, ends included.
    Between(f64, f64),
}

impl Gate {
    /// Refusal 21 otherwise: each limit is finite, and low is not above high.
    fn is_sound(self) -> bool {
        match self {
            Gate::None => true,
            Gate::AtLeast(low) => low.is_finite(),
            Gate::Between(low, high) => low.is_finite() && high.is_finite() && low <= high,
        }
    }

    /// Refusal 23 otherwise.
    fn lets_pass(self, pull: f64) -> bool {
        match self {
            Gate::None => true,
            Gate::AtLeast(low) => low <= pull,
            Gate::Between(low, high) => low <= pull && pull <= high,
        }
    }
}

/// A seal: the gate and the raw reading.
#[derive(Clone, Copy, Debug, PartialEq)]
pub struct Seal {
    /// The gate.
    pub gate: Gate,
    /// The raw reading.
    pub raw: f64,
}

impl Seal {
    /// Reads a seal's 25 bytes. Nothing for an unknown gate kind, for an
    /// unused limit that is not zero bytes, and for another length.
    pub fn read(bytes: &[u8]) -> Option<Seal> {
        let mut reader = Reader::new(bytes);
        let [kind] = reader.take()?;
        let (low, high) = (reader.u64()?, reader.u64()?);
        let raw = reader.f64()?;
        let gate = read_gate(kind, low, high)?;
        reader.is_done().then_some(Seal { gate, raw })
    }

    /// The seal's 25 bytes.
    pub fn to_bytes(self) -> [u8; SEAL_BYTES] {
        let (kind, low, high) = match self.gate {
            Gate::None => (0, 0, 0),
            Gate::AtLeast(low) => (1, low.to_bits(), 0),
            Gate::Between(low, high) => (2, low.to_bits(), high.to_bits()),
        };
        seal_bytes(kind, low, high, self.raw.to_bits())
    }
}

/// A seal's bytes from its parts, sound or not.
pub fn seal_bytes(kind: u8, low: u64, high: u64, raw: u64) -> [u8; SEAL_BYTES] {
    let mut bytes = [kind; SEAL_BYTES];
    bytes[1..9].copy_from_slice(&low.to_le_bytes());
    bytes[9..17].copy_from_slice(&high.to_le_bytes());
    bytes[17..].copy_from_slice(&raw.to_le_bytes());
    bytes
}

fn read_gate(kind: u8, low: u64, high: u64) -> Option<Gate> {
    match (kind, low, high) {
        (0, 0, 0) => Some(Gate::None),
        (1, low, 0) => Some(Gate::AtLeast(f64::from_bits(low))),
        (2, low, high) => Some(Gate::Between(f64::from_bits(low), f64::from_bits(high))),
        _ => None,
    }
}

/// Judges a seal: the pull, or the first refusal that applies.
pub fn judge_seal(calibration: Calibration, seal: Seal) -> Result<f64, Answer> {
    if !seal.gate.is_sound() {
        return Err(Answer::new(21, 0));
    }
    let pull = calibration.pull(seal.raw);
    if !pull.is_finite() {
        return Err(Answer::new(22, 0));
    }
    if !seal.gate.lets_pass(pull) {
        return Err(Answer::new(23, 0));
    }
    Ok(pull)
}
