//! The wire's pull.

use crate::calls;
use crate::refusal::Refusal;

/// The length of a seal's body.
pub const SEAL_BYTES: usize = 25;

/// The scanner's calibration: the pull is a raw reading times the gain, plus
/// the offset.
#[derive(Clone, Copy, Debug, PartialEq)]
pub struct Calibration {
    /// What a raw reading is multiplied by.
    pub gain: f64,
    /// What is then added.
    pub offset: f64,
}

impl Calibration {
    /// Gain 1, offset 0: the raw reading is the pull.
    pub const PLAIN: Calibration = Calibration {
        gain: 1.0,
        offset: 0.0,
    };
}

/// Judges a seal's body: the pull, where the gate lets it pass.
pub fn judge_seal(body: &[u8], calibration: Calibration) -> Result<f64, Refusal> {
    let mut pull = 0.0;
    Refusal::answer(calls::seal(
        body,
        calibration.gain,
        calibration.offset,
        &mut pull,
    ))?;
    Ok(pull)
}
