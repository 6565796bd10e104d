//! What the entries of a job are to be, some of them equal.

use crate::make::*;
use crate::random::Random;
use std::collections::BTreeMap;

const BOOTSTRAP: u8 = 0x40;

/// Kinds of entries with children, by how often they are made.
const PARENTS: &[(usize, u8)] = &[
    (4, CLASS),
    (2, 8),
    (2, NAME_AND_TYPE),
    (2, METHOD_HANDLE),
    (2, 16),
    (1, 19),
    (3, DYNAMIC),
    (1, INVOKE_DYNAMIC),
    (4, BOOTSTRAP),
];

/// What a node cites: another by its place among the nodes, or a raw number.
#[derive(Clone, Copy, PartialEq, Eq, PartialOrd, Ord)]
pub enum Child {
    Node(usize),
    Raw(u16),
}

/// An entry to be.
#[derive(Clone, PartialEq, Eq, PartialOrd, Ord)]
pub struct Node {
    pub tag: u8,
    pub literal: Vec<u8>,
    pub children: Vec<Child>,
}

impl Node {
    pub fn is_bootstrap(&self) -> bool {
        self.tag == BOOTSTRAP
    }

    pub fn slots(&self) -> u16 {
        1 + u16::from(is_wide(self.tag))
    }
}

/// Nodes, children ahead of their parents, and for each the first one that is equal to it.
#[derive(Default)]
pub struct Nodes {
    pub all: Vec<Node>,
    pub first: Vec<usize>,
    known: BTreeMap<Node, usize>,
}

impl Nodes {
    pub fn some(count: usize, random: &mut Random) -> Self {
        let mut nodes = Nodes::default();
        for _ in 0..count {
            let node = match nodes.all.len() > 1 && random.chance(2, 5) {
                true => nodes.copy(random),
                false => nodes.fresh(random),
            };
            nodes.add(node);
        }
        nodes
    }

    pub fn add(&mut self, node: Node) {
        let mut key = node.clone();
        for child in &mut key.children {
            if let Child::Node(at) = child {
                *at = self.first[*at];
            }
        }
        let first = *self.known.entry(key).or_insert(self.all.len());
        self.first.push(first);
        self.all.push(node);
    }

    /// One that becomes the same, though perhaps of other entries.
    fn copy(&self, random: &mut Random) -> Node {
        let mut node = random.pick(&self.all).clone();
        for child in &mut node.children {
            if let Child::Node(at) = child {
                *at = self.equal_to(*at, random);
            }
        }
        node
    }

    fn equal_to(&self, node: usize, random: &mut Random) -> usize {
        let alike = |at: &usize| self.first[*at] == self.first[node];
        *random.pick(&(0..self.all.len()).filter(alike).collect::<Vec<_>>())
    }

    pub fn add_bootstrap(&mut self, random: &mut Random) {
        let node = self.parent(BOOTSTRAP, random);
        self.add(node);
    }

    pub fn add_dynamic(&mut self, random: &mut Random) {
        let node = self.parent(DYNAMIC, random);
        self.add(node);
    }

    fn fresh(&self, random: &mut Random) -> Node {
        let bit = random.below(2) as u8;
        match random.below(12) {
            0 | 1 => leaf(INT, &[0, 0, 0, bit]),
            2 => leaf(TEXT, &[b'A' + bit]),
            3 => leaf(TEXT, NAME_TEXT),
            4 => leaf(LONG, &[0, 0, 0, 0, 0, 0, 0, bit]),
            _ => self.parent(*random.weighted(PARENTS), random),
        }
    }

    fn parent(&self, tag: u8, random: &mut Random) -> Node {
        let more = match tag {
            DYNAMIC | INVOKE_DYNAMIC | NAME_AND_TYPE => 1,
            BOOTSTRAP => random.below(3),
            _ => 0,
        };
        let of_bootstrap = matches!(tag, DYNAMIC | INVOKE_DYNAMIC);
        let mut children = vec![self.child(of_bootstrap, random)];
        children.extend((0..more).map(|_| self.child(false, random)));
        let literal = match tag {
            METHOD_HANDLE => vec![1 + random.below(2) as u8],
            _ => vec![],
        };
        Node {
            tag,
            literal,
            children,
        }
    }

    fn child(&self, of_bootstrap: bool, random: &mut Random) -> Child {
        let fit = self.of_kind(of_bootstrap);
        match fit.is_empty() || random.chance(1, 8) {
            true => Child::Raw(1 + random.below(3) as u16),
            false => Child::Node(*random.pick(&fit)),
        }
    }

    pub fn of_kind(&self, bootstraps: bool) -> Vec<usize> {
        let all = 0..self.all.len();
        all.filter(|at| self.all[*at].is_bootstrap() == bootstraps)
            .collect()
    }
}

pub fn leaf(tag: u8, literal: &[u8]) -> Node {
    Node {
        tag,
        literal: literal.to_vec(),
        children: vec![],
    }
}
