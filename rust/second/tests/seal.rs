//! The wire's pull and its gates.

use second::answer::Answer;
use second::seal::{judge_seal, seal_bytes, Calibration, Gate, Seal};

const SAMPLE: Calibration = Calibration {
    gain: 0.5,
    offset: 1.0,
};

fn judge(calibration: Calibration, gate: Gate, raw: f64) -> Result<u64, u8> {
    let judged = judge_seal(calibration, Seal { gate, raw });
    if let Err(Answer { place, .. }) = judged {
        assert_eq!(place, 0);
    }
    judged
        .map(f64::to_bits)
        .map_err(|refusal: Answer| refusal.number)
}

fn judge_plain(gate: Gate, raw: f64) -> Result<u64, u8> {
    judge(Calibration::PLAIN, gate, raw)
}

#[test]
fn a_raw_reading_of_100_is_a_pull_of_51() {
    let pull = Ok(51.0f64.to_bits());
    assert_eq!(judge(SAMPLE, Gate::None, 100.0), pull);
    assert_eq!(judge(SAMPLE, Gate::AtLeast(51.0), 100.0), pull);
    assert_eq!(judge(SAMPLE, Gate::Between(51.0, 51.0), 100.0), pull);
    assert_eq!(judge(SAMPLE, Gate::Between(40.0, 50.0), 100.0), Err(23));
    let just_above = 51.0f64.next_up();
    assert_eq!(judge(SAMPLE, Gate::AtLeast(just_above), 100.0), Err(23));
}

#[test]
fn minus_zero_passes_at_least_zero() {
    let calibration = Calibration {
        gain: 1.0,
        offset: -0.0,
    };
    let minus_zero = Ok(1 << 63);
    assert_eq!(judge(calibration, Gate::AtLeast(0.0), -0.0), minus_zero);
    assert_eq!(
        judge(calibration, Gate::Between(0.0, -0.0), -0.0),
        minus_zero
    );
    assert_eq!(judge_plain(Gate::AtLeast(0.0), -0.0), Ok(0));
}

#[test]
fn a_reading_that_is_no_number_never_passes() {
    let patterns = [0x7ff8 << 48, 0xfff8 << 48, (0x7ff0 << 48) + 1, u64::MAX];
    let gates = [
        Gate::None,
        Gate::AtLeast(-1e308),
        Gate::Between(-1e308, 1e308),
    ];
    for bits in patterns {
        assert!(f64::from_bits(bits).is_nan());
        for gate in gates {
            assert_eq!(judge_plain(gate, f64::from_bits(bits)), Err(22));
        }
    }
}

#[test]
fn a_pull_beyond_all_numbers_is_refusal_22() {
    let doubling = Calibration {
        gain: 2.0,
        offset: f64::MIN,
    };
    assert_eq!(judge(doubling, Gate::None, f64::MAX), Err(22));
    assert_eq!(judge_plain(Gate::None, f64::INFINITY), Err(22));
    assert_eq!(judge_plain(Gate::AtLeast(0.0), f64::INFINITY), Err(22));
    assert_eq!(judge_plain(Gate::AtLeast(0.0), f64::NEG_INFINITY), Err(22));
}

#[test]
fn an_unsound_limit_is_refusal_21_before_22() {
    for limit in [f64::NAN, f64::INFINITY, f64::NEG_INFINITY] {
        for raw in [1.0, f64::NAN] {
            assert_eq!(judge_plain(Gate::AtLeast(limit), raw), Err(21));
            assert_eq!(judge_plain(Gate::Between(limit, 2.0), raw), Err(21));
            assert_eq!(judge_plain(Gate::Between(0.0, limit), raw), Err(21));
        }
    }
    let below = 1.0f64.next_down();
    assert_eq!(judge_plain(Gate::Between(1.0, below), 1.0), Err(21));
    assert_eq!(judge_plain(Gate::Between(1.0, below), f64::NAN), Err(21));
}

#[test]
fn the_ends_of_a_gate_belong_to_it() {
    let gate = Gate::Between(40.0, 50.0);
    assert_eq!(judge_plain(gate, 40.0), Ok(40.0f64.to_bits()));
    assert_eq!(judge_plain(gate, 50.0), Ok(50.0f64.to_bits()));
    assert_eq!(judge_plain(gate, 40.0f64.next_down()), Err(23));
    assert_eq!(judge_plain(gate, 50.0f64.next_up()), Err(23));
}

#[test]
fn the_product_is_rounded_before_the_sum() {
    let small = 2.0f64.powi(-30);
    let calibration = Calibration {
        gain: 1.0 + small,
        offset: -(1.0 + 2.0 * small),
    };
    let raw = 1.0 + small;
    let unrounded = raw.mul_add(calibration.gain, calibration.offset);
    assert_eq!(unrounded, small * small);
    assert_eq!(calibration.pull(raw).to_bits(), 0);
    let gate = Gate::AtLeast(f64::MIN_POSITIVE);
    assert_eq!(judge(calibration, gate, raw), Err(23));
}

#[test]
fn a_seal_is_read_as_it_was_written() {
    let gates = [Gate::None, Gate::AtLeast(-3.5), Gate::Between(1.0, 2.0)];
    for gate in gates {
        let seal = Seal { gate, raw: 17.25 };
        assert_eq!(Seal::read(&seal.to_bytes()), Some(seal));
    }
    let bytes = seal_bytes(2, 1, 2, 3);
    assert_eq!(bytes[0], 2);
    assert_eq!(bytes[1..9], 1u64.to_le_bytes());
    assert_eq!(bytes[9..17], 2u64.to_le_bytes());
    assert_eq!(bytes[17..], 3u64.to_le_bytes());
}

#[test]
fn an_unknown_gate_kind_or_a_used_up_limit_is_not_read() {
    let minus_zero = 1 << 63;
    for kind in 3..=255 {
        assert_eq!(Seal::read(&seal_bytes(kind, 0, 0, 0)), None);
    }
    for limit in [1, minus_zero, u64::MAX] {
        assert_eq!(Seal::read(&seal_bytes(0, limit, 0, 0)), None);
        assert_eq!(Seal::read(&seal_bytes(0, 0, limit, 0)), None);
        assert_eq!(Seal::read(&seal_bytes(1, 0, limit, 0)), None);
        assert!(Seal::read(&seal_bytes(1, limit, 0, 0)).is_some());
    }
    let bytes = seal_bytes(0, 0, 0, 0);
    assert_eq!(Seal::read(&bytes[..24]), None);
    assert_eq!(Seal::read(&[&bytes[..], &[0]].concat()), None);
}
