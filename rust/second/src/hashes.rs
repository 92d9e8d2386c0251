//! The uses that Sprout makes of the hashes (document 01, "Hashes").
//!
//! A pair is counted from 0 here: `which` is document 01's i less 1.

use crate::blake2b::blake2b;
use crate::bytes::Bytes32;
use crate::sha256::{compress, sha256};

/// The 64 bytes that are compressed: four bits of tag, the 252 bits of the
/// key, and 32 bytes more.
pub type Block = [u8; 64];

const HSIG_PERSONALIZATION: &[u8; 16] = b"ZcashComputehSig";

/// The address of a spending key.
pub fn address(a_sk: &Bytes32) -> Bytes32 {
    compress(&address_block(a_sk))
}

/// The nullifier of a note.
pub fn nullifier(a_sk: &Bytes32, rho: &Bytes32) -> Bytes32 {
    compress(&nullifier_block(a_sk, rho))
}

/// The tag h_i that ties a spending key to the transaction.
pub fn tag(which: usize, a_sk: &Bytes32, h_sig: &Bytes32) -> Bytes32 {
    compress(&tag_block(which, a_sk, h_sig))
}

/// The rho of a new note.
pub fn new_rho(which: usize, phi: &Bytes32, h_sig: &Bytes32) -> Bytes32 {
    compress(&new_rho_block(which, phi, h_sig))
}

/// What is compressed for an address: after the key, the byte t = 0 and 31
/// zero bytes.
pub fn address_block(a_sk: &Bytes32) -> Block {
    tagged(0b1100, a_sk, &[0; 32])
}

/// What is compressed for a nullifier.
pub fn nullifier_block(a_sk: &Bytes32, rho: &Bytes32) -> Block {
    tagged(0b1110, a_sk, rho)
}

/// What is compressed for a tag: the bits 0, i-1, 0, 0 come first.
pub fn tag_block(which: usize, a_sk: &Bytes32, h_sig: &Bytes32) -> Block {
    tagged([0b0000, 0b0100][which], a_sk, h_sig)
}

/// What is compressed for a new rho: the bits 0, i-1, 1, 0 come first.
pub fn new_rho_block(which: usize, phi: &Bytes32, h_sig: &Bytes32) -> Block {
    tagged([0b0010, 0b0110][which], phi, h_sig)
}

/// Puts the tag into the top four bits of the first byte; the low four stay
/// the key's.
fn tagged(tag: u8, key: &Bytes32, rest: &Bytes32) -> Block {
    let mut block = [0; 64];
    block[..32].copy_from_slice(key);
    block[32..].copy_from_slice(rest);
    block[0] = (tag << 4) | (key[0] & 0x0f);
    block
}

/// The commitment of a note.
pub fn commitment(a_pk: &Bytes32, value: u64, rho: &Bytes32, r: &Bytes32) -> Bytes32 {
    let mut message = vec![0xb0];
    message.extend(a_pk);
    message.extend(value.to_le_bytes());
    message.extend(rho);
    message.extend(r);
    sha256(&message)
}

/// hSig, which names the transaction.
pub fn h_sig(seed: &Bytes32, nullifiers: &[Bytes32; 2], transaction_key: &Bytes32) -> Bytes32 {
    let message = [*seed, nullifiers[0], nullifiers[1], *transaction_key].concat();
    blake2b(HSIG_PERSONALIZATION, &message)
}
