//! What a small job shall hold, before entries are ordered and names given.
//!
//! A node cites only earlier nodes, so a sound plan has no circles whatever order its entries get
//! later. Unsound nodes are apart: sound ones never cite them, so a job meets 12 and 13 only where
//! a fault is planted, yet most jobs carry some that are never reached.

use crate::make::*;
use crate::random::Random;

#[derive(Clone, PartialEq)]
pub enum Target {
    Raw(u16),
    Node(usize),
    /// A name nobody defines.
    Missing,
    /// A name that leads back to itself.
    Circle,
}

#[derive(Clone)]
pub enum Shape {
    Constant { tag: u8, literal: Vec<u8> },
    Bootstrap,
}

#[derive(Clone)]
pub struct Node {
    pub shape: Shape,
    pub children: Vec<Target>,
    pub sound: bool,
}

pub struct Request {
    pub ldc: bool,
    pub target: Target,
}

/// The class slot that build looks at: a number, or the answer for a node.
pub enum ClassWish {
    Slot(u16),
    Node(usize),
}

pub struct Plan {
    pub nodes: Vec<Node>,
    pub raw_constants: Vec<(u16, usize)>,
    pub raw_bootstraps: Vec<(u16, usize)>,
    pub requests: Vec<Request>,
    /// Names that are defined (or circular) and used by nobody; true for bootstraps.
    pub idle_names: Vec<(bool, Target)>,
    /// How many names get a second definition.
    pub doubled_names: usize,
    /// Names are often of 254 or 255 bytes, and used more often than numbers.
    pub long_names: bool,
    pub name_byte: u8,
    pub class: ClassWish,
}

const TEXTS: &[(usize, &[u8])] = &[
    (4, b"A"),
    (3, b"foo"),
    (2, b""),
    (2, b"1234"),
    (2, b"BootstrapMethods"),
    (1, b"12345678"),
    (1, b"\0\0\0\x01"),
    (1, b"B\0"),
    (1, b"BootstrapMethod"),
    (1, b"\xff\xfe\x80"),
    (1, b"()V"),
];

/// "1234" and "12345678" as bits, so that only the tag tells them from the text.
const FOURS: &[(usize, &[u8])] = &[
    (3, &[0, 0, 0, 1]),
    (3, b"1234"),
    (1, &[0; 4]),
    (1, &[0x7f, 0xc0, 0, 0]),
    (1, &[0xff; 4]),
    (1, &[0x80, 0, 0, 0]),
];

const EIGHTS: &[(usize, &[u8])] = &[
    (3, &[0, 0, 0, 0, 0, 0, 0, 1]),
    (3, b"12345678"),
    (1, &[0; 8]),
    (1, &[0, 0, 0, 1, 0, 0, 0, 0]),
    (1, &[0xff; 8]),
];

/// Kind bytes are any byte: valid ones, 0, and others.
const HANDLE_KINDS: &[u8] = &[1, 1, 2, 5, 6, 9, 0, 10, 255];

const TAGS: &[(usize, u8)] = &[
    (5, TEXT),
    (5, INT),
    (3, FLOAT),
    (3, LONG),
    (2, DOUBLE),
    (5, CLASS),
    (2, 8),
    (2, FIELD),
    (1, 10),
    (1, 11),
    (2, NAME_AND_TYPE),
    (2, METHOD_HANDLE),
    (1, 16),
    (3, DYNAMIC),
    (2, INVOKE_DYNAMIC),
    (1, 19),
    (1, 20),
];

const RAW_NUMBERS: &[u16] = &[
    0, 1, 1, 2, 2, 3, 4, 5, 6, 9, 254, 255, 256, 65533, 65534, 65535,
];
const RAW_INDEXES: &[u16] = &[0, 0, 1, 2, 5, 65534, 65535];

/// The tags that each reference of a constant of this tag wants; empty for a bootstrap.
fn wanted_tags(tag: u8) -> &'static [&'static [u8]] {
    match tag {
        CLASS | 8 | 16 | 19 | 20 => &[&[TEXT]],
        9..=11 => &[&[CLASS], &[NAME_AND_TYPE]],
        NAME_AND_TYPE => &[&[TEXT], &[TEXT]],
        METHOD_HANDLE => &[&[FIELD, 10, 11, METHOD_HANDLE]],
        DYNAMIC | INVOKE_DYNAMIC => &[&[], &[NAME_AND_TYPE]],
        _ => &[],
    }
}

/// Whether the reference at this place in the field order is a bootstrap's.
pub fn cites_bootstrap(shape: &Shape, place: usize) -> bool {
    matches!(
        shape,
        Shape::Constant {
            tag: DYNAMIC | INVOKE_DYNAMIC,
            ..
        }
    ) && place == 0
}

impl Node {
    pub fn tag(&self) -> Option<u8> {
        match self.shape {
            Shape::Constant { tag, .. } => Some(tag),
            Shape::Bootstrap => None,
        }
    }
}

impl Plan {
    pub fn new() -> Self {
        Self {
            nodes: vec![],
            raw_constants: vec![],
            raw_bootstraps: vec![],
            requests: vec![],
            idle_names: vec![],
            doubled_names: 0,
            long_names: false,
            name_byte: NAME_NEVER,
            class: ClassWish::Slot(0),
        }
    }

    fn add(&mut self, shape: Shape, children: Vec<Target>) -> usize {
        self.nodes.push(Node {
            shape,
            children,
            sound: true,
        });
        self.nodes.len() - 1
    }

    pub fn add_constant(&mut self, tag: u8, literal: &[u8], children: Vec<Target>) -> usize {
        let literal = literal.to_vec();
        self.add(Shape::Constant { tag, literal }, children)
    }

    pub fn add_bootstrap(&mut self, handle: Target, arguments: Vec<Target>) -> usize {
        let mut children = vec![handle];
        children.extend(arguments);
        self.add(Shape::Bootstrap, children)
    }

    pub fn ask(&mut self, ldc: bool, target: Target) {
        self.requests.push(Request { ldc, target });
    }

    pub fn is_wide(&self, node: usize) -> bool {
        self.nodes[node].tag().is_some_and(is_wide)
    }

    /// Sound constants of one of these tags; of any tag if there are none given.
    pub fn constants(&self, tags: &[u8]) -> Vec<usize> {
        let fits = |n: &Node| {
            n.sound
                && n.tag()
                    .is_some_and(|t| tags.is_empty() || tags.contains(&t))
        };
        (0..self.nodes.len())
            .filter(|&i| fits(&self.nodes[i]))
            .collect()
    }

    pub fn bootstraps(&self) -> Vec<usize> {
        let fits = |n: &Node| n.sound && n.tag().is_none();
        (0..self.nodes.len())
            .filter(|&i| fits(&self.nodes[i]))
            .collect()
    }

    fn holds(&self, slot: u16) -> bool {
        let covers = |&(at, node): &(u16, usize)| {
            at == slot || (self.is_wide(node) && at.checked_add(1) == Some(slot))
        };
        self.raw_constants.iter().any(covers)
    }

    /// Defines a raw constant where that is allowed and nothing is in the way.
    pub fn place(&mut self, slot: u16, node: usize) {
        let last = if self.is_wide(node) { 65533 } else { 65534 };
        let fits = (1..=last).contains(&slot)
            && !self.holds(slot)
            && !(self.is_wide(node) && self.holds(slot + 1));
        if fits {
            self.raw_constants.push((slot, node));
        }
    }

    pub fn place_bootstrap(&mut self, index: u16, node: usize) {
        let fits = index < 65535 && self.raw_bootstraps.iter().all(|&(at, _)| at != index);
        if fits {
            self.raw_bootstraps.push((index, node));
        }
    }

    /// A constant without references: of this tag if it has a literal, else a text.
    pub fn leaf(&mut self, tag: u8, random: &mut Random) -> usize {
        let (tag, literals) = match tag {
            INT | FLOAT => (tag, FOURS),
            LONG | DOUBLE => (tag, EIGHTS),
            _ => (TEXT, TEXTS),
        };
        let literal = *random.weighted(literals);
        self.add_constant(tag, literal, vec![])
    }

    /// A new constant of any tag.
    pub fn any_constant(&mut self, random: &mut Random) -> usize {
        let tag = *random.weighted(TAGS);
        self.constant_of(tag, 2, random)
    }

    /// A new constant of this tag, with at most `depth` levels of new children under it.
    pub fn constant_of(&mut self, tag: u8, depth: usize, random: &mut Random) -> usize {
        if has_literal(tag) || depth == 0 {
            return self.leaf(tag, random);
        }
        let mut children = vec![];
        for &tags in wanted_tags(tag) {
            let child = match tags {
                [] => self.bootstrap_child(depth - 1, random),
                _ => self.child(tags, depth - 1, random),
            };
            children.push(child);
        }
        let kind = [*random.pick(HANDLE_KINDS)];
        let literal = if tag == METHOD_HANDLE { &kind[..] } else { &[] };
        self.add_constant(tag, literal, children)
    }

    /// A child: a constant already there, a raw number, or a new constant.
    pub fn child(&mut self, tags: &[u8], depth: usize, random: &mut Random) -> Target {
        let (suited, any) = (self.constants(tags), self.constants(&[]));
        match random.below(20) {
            0..10 if !suited.is_empty() => Target::Node(*random.pick(&suited)),
            10..13 if !any.is_empty() => Target::Node(*random.pick(&any)),
            13..16 => Target::Raw(*random.pick(RAW_NUMBERS)),
            _ if tags.is_empty() => Target::Node(self.any_constant(random)),
            _ => Target::Node(self.constant_of(*random.pick(tags), depth, random)),
        }
    }

    pub fn bootstrap_child(&mut self, depth: usize, random: &mut Random) -> Target {
        let there = self.bootstraps();
        match random.below(10) {
            0..5 if !there.is_empty() => Target::Node(*random.pick(&there)),
            5..7 => Target::Raw(*random.pick(RAW_INDEXES)),
            _ => Target::Node(self.new_bootstrap(depth, random)),
        }
    }

    pub fn new_bootstrap(&mut self, depth: usize, random: &mut Random) -> usize {
        let handle = self.child(&[METHOD_HANDLE], depth.min(1), random);
        let count = *random.weighted(&[(3, 0), (4, 1), (2, 2), (1, 3)]);
        let arguments = (0..count)
            .map(|_| self.child(&[TEXT, INT, LONG, CLASS, DYNAMIC], 0, random))
            .collect();
        self.add_bootstrap(handle, arguments)
    }

    /// Another entry equal to this one, some of its children being copies as well.
    pub fn twin(&mut self, node: usize, random: &mut Random) -> usize {
        let mut copy = self.nodes[node].clone();
        for child in &mut copy.children {
            if let Target::Node(n) = *child
                && random.chance(1, 2)
            {
                *child = Target::Node(self.twin(n, random));
            }
        }
        self.add(copy.shape, copy.children)
    }

    /// An entry that must not be reached: one of its references is bad, or it reaches itself.
    pub fn unsound(&mut self, bad: Target, random: &mut Random) -> usize {
        let node = self.any_or_bootstrap(random);
        self.spoil(node, bad, random)
    }

    pub fn unsound_bootstrap(&mut self, bad: Target, random: &mut Random) -> usize {
        let node = self.new_bootstrap(0, random);
        self.spoil(node, bad, random)
    }

    fn spoil(&mut self, node: usize, bad: Target, random: &mut Random) -> usize {
        let place = random.below(self.nodes[node].children.len());
        self.nodes[node].children[place] = bad;
        self.nodes[node].sound = false;
        node
    }

    /// Entries that reach themselves through a name: one alone, or several in a ring.
    pub fn ring(&mut self, random: &mut Random) -> usize {
        let first = self.unsound(Target::Missing, random);
        let last = if random.chance(1, 2) {
            self.around(first)
        } else {
            first
        };
        let gap = self.nodes[first]
            .children
            .iter()
            .position(|c| *c == Target::Missing)
            .unwrap();
        let last = self.of_cited_kind(first, gap, last);
        self.nodes[first].children[gap] = Target::Node(last);
        first
    }

    /// An unsound constant that cites this node.
    fn around(&mut self, node: usize) -> usize {
        let around = match self.nodes[node].tag() {
            Some(_) => self.add_constant(CLASS, &[], vec![Target::Node(node)]),
            None => self.add_constant(DYNAMIC, &[], vec![Target::Node(node), Target::Raw(1)]),
        };
        self.nodes[around].sound = false;
        around
    }

    /// The node itself if the reference at this place may cite it, else an unsound node between.
    fn of_cited_kind(&mut self, citing: usize, place: usize, cited: usize) -> usize {
        let is_constant = self.nodes[cited].tag().is_some();
        match cites_bootstrap(&self.nodes[citing].shape, place) {
            true if is_constant => {
                let between = self.add_bootstrap(Target::Node(cited), vec![]);
                self.nodes[between].sound = false;
                between
            }
            false if !is_constant => self.around(cited),
            _ => cited,
        }
    }

    /// A new node that has references; 0 stands for a bootstrap.
    fn any_or_bootstrap(&mut self, random: &mut Random) -> usize {
        match *random.pick(&[
            CLASS,
            NAME_AND_TYPE,
            METHOD_HANDLE,
            DYNAMIC,
            DYNAMIC,
            INVOKE_DYNAMIC,
            0,
        ]) {
            0 => self.new_bootstrap(0, random),
            tag => self.constant_of(tag, 1, random),
        }
    }
}
