//! The commitment tree: 29 levels above the leaves, the short record of it,
//! and the plain tree that keeps every leaf.

use std::sync::OnceLock;

use crate::bytes::{Bytes32, Reader};
use crate::case::Position;
use crate::sha256::compress_pair;

/// Levels above the leaves.
pub const DEPTH: usize = 29;

/// As many leaves as the tree can hold.
pub const FULL: u32 = 1 << DEPTH;

/// The record's bytes: the leaf count and 30 nodes.
pub const RECORD_BYTES: usize = 4 + (DEPTH + 1) * 32;

/// A leaf or an inner node.
pub type Node = Bytes32;

/// The siblings on the way up, leaf level first.
pub type Path = [Node; DEPTH];

/// The parent of two nodes.
pub fn parent(left: &Node, right: &Node) -> Node {
    compress_pair(left, right)
}

/// The root of an empty tree of this many levels, 0 to 29.
pub fn empty_root(level: usize) -> Node {
    static ROOTS: OnceLock<[Node; DEPTH + 1]> = OnceLock::new();
    ROOTS.get_or_init(all_empty_roots)[level]
}

fn all_empty_roots() -> [Node; DEPTH + 1] {
    let mut roots = [[0; 32]; DEPTH + 1];
    for level in 0..DEPTH {
        roots[level + 1] = parent(&roots[level], &roots[level]);
    }
    roots
}

/// The nodes one level up, the row being filled with empty trees.
fn row_above(row: &[Node], level: usize) -> Vec<Node> {
    let empty = empty_root(level);
    row.chunks(2)
        .map(|pair| parent(&pair[0], pair.get(1).unwrap_or(&empty)))
        .collect()
}

/// The root of the 29-level tree over these leaves.
pub fn root_of_leaves(leaves: &[Node]) -> Node {
    let mut row = leaves.to_vec();
    for level in 0..DEPTH {
        row = row_above(&row, level);
    }
    row.first().copied().unwrap_or(empty_root(DEPTH))
}

/// The path from the leaf at this position to the root over these leaves.
pub fn path_of_leaf(leaves: &[Node], position: Position) -> Path {
    let mut row = leaves.to_vec();
    std::array::from_fn(|level| {
        let sibling = (position.0 as usize >> level) ^ 1;
        let node = row.get(sibling).copied().unwrap_or(empty_root(level));
        row = row_above(&row, level);
        node
    })
}

/// Where a path, or the lower part of one, leads from this leaf.
pub fn climb(leaf: &Node, position: Position, path: &[Node]) -> Node {
    let mut node = *leaf;
    for (level, sibling) in path.iter().enumerate() {
        node = if position.is_right_child(level) {
            parent(sibling, &node)
        } else {
            parent(&node, sibling)
        };
    }
    node
}

/// The short record: how many leaves there are, and the nodes that wait for
/// their right sibling. The node of level k counts where bit k of the leaf
/// count is 1.
#[derive(Clone, Debug, PartialEq, Eq)]
pub struct Record {
    /// Leaves so far.
    pub count: u32,
    /// The waiting nodes, level 0 first.
    pub nodes: [Node; DEPTH + 1],
}

impl Record {
    /// The record without leaves, all zero.
    pub const EMPTY: Record = Record {
        count: 0,
        nodes: [[0; 32]; DEPTH + 1],
    };

    /// The record with one leaf more; a full one comes back as it is.
    pub fn with_leaf(mut self, leaf: &Node) -> Record {
        if self.count >= FULL {
            return self;
        }
        let level = self.count.trailing_ones() as usize;
        let carried = self.nodes[..level]
            .iter()
            .fold(*leaf, |carried, waiting| parent(waiting, &carried));
        self.nodes[level] = carried;
        self.count += 1;
        self
    }

    /// The root of the tree that this record stands for.
    pub fn root(&self) -> Node {
        if self.count >= FULL {
            return self.nodes[DEPTH];
        }
        let mut node = empty_root(0);
        for level in 0..DEPTH {
            node = if self.is_waiting(level) {
                parent(&self.nodes[level], &node)
            } else {
                parent(&node, &empty_root(level))
            };
        }
        node
    }

    /// Whether the node of this level counts.
    pub fn is_waiting(&self, level: usize) -> bool {
        (self.count >> level) & 1 == 1
    }

    /// Reads a record: the leaf count, then the nodes.
    pub fn read(reader: &mut Reader) -> Option<Record> {
        let mut record = Record::EMPTY;
        record.count = reader.u32()?;
        for node in &mut record.nodes {
            *node = reader.take()?;
        }
        Some(record)
    }

    /// The record's bytes.
    pub fn to_bytes(&self) -> Vec<u8> {
        let mut bytes = self.count.to_le_bytes().to_vec();
        bytes.extend(self.nodes.as_flattened());
        bytes
    }
}

/// The tree of a ledger. One grown from fresh keeps every leaf and its root
/// is worked out from them all; one from elsewhere has its record alone.
#[derive(Clone, Debug, PartialEq, Eq)]
pub struct Tree {
    record: Record,
    leaves: Option<Vec<Node>>,
}

impl Tree {
    /// The tree of a fresh ledger.
    pub fn fresh() -> Tree {
        Tree {
            record: Record::EMPTY,
            leaves: Some(Vec::new()),
        }
    }

    /// A tree from elsewhere, known by its record.
    pub fn planted(record: Record) -> Tree {
        Tree {
            record,
            leaves: None,
        }
    }

    /// Adds a leaf.
    pub fn append(&mut self, leaf: &Node) {
        if let Some(leaves) = &mut self.leaves {
            leaves.push(*leaf);
        }
        self.record = self.record.clone().with_leaf(leaf);
    }

    /// The current root.
    pub fn root(&self) -> Node {
        match &self.leaves {
            Some(leaves) => root_of_leaves(leaves),
            None => self.record.root(),
        }
    }

    /// Leaves so far.
    pub fn count(&self) -> u32 {
        self.record.count
    }

    /// The short record.
    pub fn record(&self) -> &Record {
        &self.record
    }

    /// All leaves, where they are known.
    pub fn leaves(&self) -> Option<&[Node]> {
        self.leaves.as_deref()
    }
}
