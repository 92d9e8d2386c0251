//! What stands where in a case file of either edition.

use second::case::{Case, Edition};
use second::random::Random;

use Edition::{First, Second};

/// A random file of this length, and the case that it is read as.
fn random_case(length: usize) -> (Vec<u8>, Case) {
    let mut file = vec![0; length];
    Random::new(1).fill(&mut file);
    let case = Case::read(&file).expect("the right length");
    (file, case)
}

/// The bytes at an offset.
fn at<const N: usize>(file: &[u8], offset: usize) -> [u8; N] {
    file[offset..offset + N]
        .try_into()
        .expect("inside the file")
}

#[test]
fn an_edition_is_known_by_the_length_of_its_file_alone() {
    assert_eq!([First, Second].map(Edition::case_bytes), [4_210, 4_106]);
    assert_eq!([First, Second].map(Edition::proof_bytes), [296, 192]);
    assert_eq!(Edition::ALL, [First, Second]);
    assert_eq!([First, Second].map(Edition::other), [Second, First]);
    for length in 0..10_000 {
        let edition = match length {
            4_210 => Some(First),
            4_106 => Some(Second),
            _ => None,
        };
        assert_eq!(Edition::of_length(length), edition, "{length} bytes");
        let read = Case::read(&vec![0; length]).map(|case| case.edition());
        assert_eq!(read, edition, "{length} bytes");
    }
}

#[test]
fn what_stands_in_front_of_the_proof_lies_as_published_in_both_editions() {
    for length in [4_210, 4_106] {
        let (file, case) = random_case(length);
        assert_eq!(case.vpub_old.0, u64::from_le_bytes(at(&file, 0)));
        assert_eq!(case.vpub_new.0, u64::from_le_bytes(at(&file, 8)));
        assert_eq!(case.anchor, at(&file, 16));
        assert_eq!(case.nullifiers, [at(&file, 48), at(&file, 80)]);
        assert_eq!(case.commitments, [at(&file, 112), at(&file, 144)]);
        assert_eq!(case.ephemeral_key, at(&file, 176));
        assert_eq!(case.seed, at(&file, 208));
        assert_eq!(case.tags, [at(&file, 240), at(&file, 272)]);
    }
}

#[test]
fn the_proof_and_what_stands_behind_it_lie_as_published_in_the_first_edition() {
    let (file, case) = random_case(4_210);
    assert_eq!(case.proof.bytes(), &file[304..600]);
    assert_eq!(case.ciphertexts, [at(&file, 600), at(&file, 1_201)]);
    assert_eq!(case.transaction_key, at(&file, 1_802));
    check_witness(&file, &case, [1_834, 2_902, 3_970, 4_074, 4_178]);
}

#[test]
fn the_proof_and_what_stands_behind_it_lie_as_published_in_the_second_edition() {
    let (file, case) = random_case(4_106);
    assert_eq!(case.proof.bytes(), &file[304..496]);
    assert_eq!(case.ciphertexts, [at(&file, 496), at(&file, 1_097)]);
    assert_eq!(case.transaction_key, at(&file, 1_698));
    check_witness(&file, &case, [1_730, 2_798, 3_866, 3_970, 4_074]);
}

/// The old notes, the new ones and phi start where they are to.
fn check_witness(file: &[u8], case: &Case, starts: [usize; 5]) {
    let [old_1, old_2, new_1, new_2, phi] = starts;
    for (note, start) in case.old.iter().zip([old_1, old_2]) {
        assert_eq!(note.a_sk, at(file, start));
        assert_eq!(note.a_pk, at(file, start + 32));
        assert_eq!(note.value.0, u64::from_le_bytes(at(file, start + 64)));
        assert_eq!(note.rho, at(file, start + 72));
        assert_eq!(note.r, at(file, start + 104));
        assert_eq!(note.position.0, u32::from_le_bytes(at(file, start + 136)));
        for (level, node) in note.path.iter().enumerate() {
            assert_eq!(*node, at(file, start + 140 + 32 * level));
        }
    }
    for (note, start) in case.new.iter().zip([new_1, new_2]) {
        assert_eq!(note.a_pk, at(file, start));
        assert_eq!(note.value.0, u64::from_le_bytes(at(file, start + 32)));
        assert_eq!(note.rho, at(file, start + 40));
        assert_eq!(note.r, at(file, start + 72));
    }
    assert_eq!(case.phi, at(file, phi));
    assert_eq!(file.len(), phi + 32);
}

#[test]
fn a_case_is_written_as_it_was_read() {
    for length in [4_210, 4_106] {
        let (file, case) = random_case(length);
        assert_eq!(case.to_bytes(), file);
    }
}

#[test]
fn a_case_put_into_the_other_edition_keeps_all_but_its_proof() {
    for (length, other, cut) in [(4_210, 4_106, 600), (4_106, 4_210, 496)] {
        let (file, case) = random_case(length);
        let (_, stranger) = random_case(other);
        let moved = case.clone().with_proof(stranger.proof.clone()).to_bytes();
        assert_eq!(moved.len(), other);
        assert_eq!(moved[..304], file[..304]);
        let proof_bytes = stranger.proof.bytes().len();
        assert_eq!(moved[304..304 + proof_bytes], *stranger.proof.bytes());
        assert_eq!(moved[304 + proof_bytes..], file[cut..]);
        let back = Case::read(&moved).expect("the right length");
        assert_eq!(back.with_proof(case.proof.clone()), case);
    }
}
