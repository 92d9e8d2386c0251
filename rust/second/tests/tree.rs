//! The record against the tree that keeps every leaf.

use second::bytes::Reader;
use second::case::Position;
use second::random::Random;
use second::tree::{
    climb, empty_root, parent, path_of_leaf, root_of_leaves, Node, Record, Tree, DEPTH, FULL,
    RECORD_BYTES,
};

fn random_record(random: &mut Random, count: u32) -> Record {
    Record {
        count,
        nodes: std::array::from_fn(|_| random.bytes()),
    }
}

#[test]
fn the_record_s_root_is_that_of_all_leaves() {
    let mut random = Random::new(1);
    let mut leaves: Vec<Node> = Vec::new();
    let mut record = random_record(&mut random, 0);
    for count in 0..200 {
        assert_eq!(record.count, count);
        assert_eq!(record.root(), root_of_leaves(&leaves), "{count} leaves");
        let leaf = random.bytes();
        leaves.push(leaf);
        record = record.with_leaf(&leaf);
    }
}

#[test]
fn the_root_of_few_leaves_by_hand() {
    let (one, two, three) = ([1; 32], [2; 32], [3; 32]);
    let left = parent(&one, &two);
    let right = parent(&three, &empty_root(0));
    let expected = (2..DEPTH).fold(parent(&left, &right), |node, level| {
        parent(&node, &empty_root(level))
    });
    assert_eq!(root_of_leaves(&[one, two, three]), expected);
}

#[test]
fn a_leaf_s_path_leads_to_the_root() {
    let mut random = Random::new(2);
    let leaves: Vec<Node> = (0..37).map(|_| random.bytes()).collect();
    for count in [1, 2, 3, 8, 36, 37] {
        let root = root_of_leaves(&leaves[..count]);
        for (place, leaf) in leaves[..count].iter().enumerate() {
            let position = Position(place as u32);
            let path = path_of_leaf(&leaves[..count], position);
            assert_eq!(climb(leaf, position, &path), root);
            assert_ne!(climb(leaf, Position(position.0 ^ 1), &path), root);
        }
    }
}

#[test]
fn a_leaf_goes_to_the_lowest_free_level() {
    let mut random = Random::new(3);
    let before = random_record(&mut random, 0b0111);
    let leaf = random.bytes();
    let after = before.clone().with_leaf(&leaf);
    let [a, b, c] = [0, 1, 2].map(|level| before.nodes[level]);
    let carried = parent(&c, &parent(&b, &parent(&a, &leaf)));
    let mut expected = before;
    expected.count = 0b1000;
    expected.nodes[3] = carried;
    assert_eq!(after, expected);
}

#[test]
fn the_last_leaf_fills_the_tree_and_no_more_are_taken() {
    let mut random = Random::new(4);
    let before = random_record(&mut random, FULL - 1);
    let leaf = random.bytes();
    let full = before.clone().with_leaf(&leaf);
    let root = before.nodes[..DEPTH]
        .iter()
        .fold(leaf, |carried, waiting| parent(waiting, &carried));
    assert_eq!(full.count, FULL);
    assert_eq!(full.nodes[DEPTH], root);
    assert_eq!(full.nodes[..DEPTH], before.nodes[..DEPTH]);
    assert_eq!(full.root(), root);
    assert_eq!(full.clone().with_leaf(&random.bytes()), full);
}

#[test]
fn before_the_last_leaf_the_root_has_an_empty_leaf_there() {
    let mut random = Random::new(5);
    let record = random_record(&mut random, FULL - 1);
    assert_eq!(record.clone().with_leaf(&[0; 32]).root(), record.root());
}

#[test]
fn a_record_beyond_full_stays_as_it_is() {
    let mut random = Random::new(6);
    for count in [FULL, FULL + 1, 1 << 30, u32::MAX] {
        let record = random_record(&mut random, count);
        assert_eq!(record.clone().with_leaf(&random.bytes()), record);
        assert_eq!(record.root(), record.nodes[DEPTH]);
    }
}

#[test]
fn a_tree_from_elsewhere_grows_as_its_record_does() {
    let mut random = Random::new(7);
    let mut grown = Tree::fresh();
    for _ in 0..11 {
        grown.append(&random.bytes());
    }
    let mut planted = Tree::planted(grown.record().clone());
    for _ in 0..30 {
        let leaf = random.bytes();
        grown.append(&leaf);
        planted.append(&leaf);
        assert_eq!(planted.root(), grown.root());
        assert_eq!(planted.record(), grown.record());
    }
    assert_eq!(planted.leaves(), None);
}

#[test]
fn a_record_s_bytes_are_the_count_and_the_nodes() {
    let record = random_record(&mut Random::new(8), 0x0102_0304);
    let bytes = record.to_bytes();
    assert_eq!(bytes.len(), RECORD_BYTES);
    assert_eq!(RECORD_BYTES, 964);
    assert_eq!(bytes[..4], [4, 3, 2, 1]);
    assert_eq!(bytes[4..36], record.nodes[0]);
    assert_eq!(bytes[932..], record.nodes[29]);
    assert_eq!(Record::read(&mut Reader::new(&bytes)), Some(record));
    assert_eq!(Record::read(&mut Reader::new(&bytes[1..])), None);
}
