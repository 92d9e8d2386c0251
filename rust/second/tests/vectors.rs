//! The published vectors of the standards and of the Zcash network.

use second::blake2b::blake2b;
use second::bytes::{hex, Bytes32};
use second::hashes::{address, h_sig};
use second::sha256::{compress, compress_pair, sha256};
use second::tree::{empty_root, parent, root_of_leaves, Record, Tree, DEPTH};

const NO_PERSONALIZATION: &[u8; 16] = &[0; 16];
const EMPTY_ROOT: &str = "d7c612c817793191a1e68652121876d6b3bde40f4fa52bc314145ce6e5cdd259";

#[test]
fn sha256_of_the_nist_examples() {
    let examples: [(&[u8], &str); 4] = [
        (
            b"",
            "e3b0c44298fc1c149afbf4c8996fb92427ae41e4649b934ca495991b7852b855",
        ),
        (
            b"abc",
            "ba7816bf8f01cfea414140de5dae2223b00361a396177a9cb410ff61f20015ad",
        ),
        (
            b"abcdbcdecdefdefgefghfghighijhijkijkljklmklmnlmnomnopnopq",
            "248d6a61d20638b8e5c026930c3e6039a33ce45964ff2167f6ecedd419db06c1",
        ),
        (
            b"abcdefghbcdefghicdefghijdefghijkefghijklfghijklmghijklmnhijklmnoijklmnopjklmnopqklmnopqrlmnopqrsmnopqrstnopqrstu",
            "cf5b16a778af8380036ce59e7b0492370b249b11e8f07a51afac45037afee9d1",
        ),
    ];
    for (message, digest) in examples {
        assert_eq!(hex(&sha256(message)), digest);
    }
}

#[test]
fn sha256_of_a_million_letters() {
    let message = vec![b'a'; 1_000_000];
    assert_eq!(
        hex(&sha256(&message)),
        "cdc76e5c9914fb9281a1c7e284d73e67f1809a48a497200e046d39ccc7112cd0"
    );
}

#[test]
fn compression_of_zero_bytes() {
    let digest = "da5698be17b9b46962335799779fbeca8ce5d491c0d26243bafef9ea1837a9d8";
    assert_eq!(hex(&compress(&[0; 64])), digest);
    assert_eq!(hex(&compress_pair(&[0; 32], &[0; 32])), digest);
    assert_eq!(hex(&empty_root(1)), digest);
}

#[test]
fn compression_of_a_padded_block_is_the_hash() {
    let mut block = [0; 64];
    block[..4].copy_from_slice(b"abc\x80");
    block[63] = 24;
    assert_eq!(compress(&block), sha256(b"abc"));
}

#[test]
fn blake2b_of_the_published_messages() {
    let long: Vec<u8> = (0..255).collect();
    let examples: [(&[u8], &str); 3] = [
        (b"abc", "ba80a53f981c4d0d6a2797b69f12f6e94c212f14685ac4b74b12bb6fdbffa2d17d87c5392aab792dc252d5de4533cc9518d38aa8dbf1925ab92386edd4009923"),
        (b"", "786a02f742015903c6c6fd852552d272912f4740e15847618a86e217f71f5419d25e1031afee585313896444934eb04b903a685b1448b755d56f701afe9be2ce"),
        (&long, "5b21c5fd8868367612474fa2e70e9cfa2201ffeee8fafab5797ad58fefa17c9b5b107da4a3db6320baaf2c8617d5a51df914ae88da3867c2d41f0cc14fa67928"),
    ];
    for (message, digest) in examples {
        assert_eq!(hex(&blake2b::<64>(NO_PERSONALIZATION, message)), digest);
    }
}

#[test]
fn blake2b_with_a_digest_of_32_bytes() {
    assert_eq!(
        hex(&blake2b::<32>(NO_PERSONALIZATION, b"")),
        "0e5751c026e543b2e8ab2eb06099daa1d1e5df47778f7787faab45cdf12fe3a8"
    );
}

#[test]
fn the_empty_tree_has_the_published_root() {
    assert_eq!(hex(&empty_root(DEPTH)), EMPTY_ROOT);
    assert_eq!(hex(&root_of_leaves(&[])), EMPTY_ROOT);
    assert_eq!(hex(&Record::EMPTY.root()), EMPTY_ROOT);
    assert_eq!(hex(&Tree::fresh().root()), EMPTY_ROOT);
}

#[test]
fn h_sig_of_the_public_node_s_test() {
    assert_eq!(
        hex(&h_sig(&[0x61; 32], &[[0x62; 32], [0x63; 32]], &[0x64; 32])),
        "13815b0ab958eb4c82a1b84c4fe4610ba0f800f94a6b7555c029a31f9fa6cba8"
    );
}

#[test]
fn h_sig_of_zero_bytes() {
    assert_eq!(
        hex(&h_sig(&[0; 32], &[[0; 32]; 2], &[0; 32])),
        "191e7f1ebe471481a0c6c6aa734cf260294b14d2cb1ffb123bd95d6b27227369"
    );
}

/// The root above a node of some level, in a tree of depth 4 that has nothing
/// to the node's right.
fn root_of_depth_4(node: Bytes32, level: usize) -> Bytes32 {
    (level..4).fold(node, |left, level| parent(&left, &empty_root(level)))
}

/// A leaf as the public node prints it, the last byte first.
fn leaf(printed: &str) -> Bytes32 {
    let digits = |i: usize| u8::from_str_radix(&printed[2 * i..2 * i + 2], 16).expect("two digits");
    std::array::from_fn(|i| digits(31 - i))
}

#[test]
fn the_public_node_s_trees_of_depth_4() {
    let one = leaf("bab6e8992959caf0ca94847c36b4e648a7f88a9b9c6a62ea387cf1fb9badfd62");
    let two = leaf("43c9a4b21555b832a79fc12ce27a97d4f4eca1638e7161a780db1d5ebc35eb68");
    assert_eq!(
        hex(&root_of_depth_4(one, 0)),
        "95bf71d8e803b8601c14b5949d0f92690181154ef9d82eb3e24852266823317a"
    );
    assert_eq!(
        hex(&root_of_depth_4(parent(&one, &two), 1)),
        "73f18d3f9cd11010aa01d4f444039e566f14ef282109df9649b2eb75e7a53ed1"
    );
}

#[test]
fn the_public_node_s_key_has_its_address() {
    let mut key = leaf("0bbba5712bf43c9df6a72f036266affbca9ca1c2499a931d817df1dd5e4a08d1");
    key.reverse();
    assert_eq!(
        hex(&address(&key)),
        "4d3dc54738b98fc484cf84d0c914e60c92bcd23c3f4dfaa7f1c4496ac5f04d73"
    );
}
