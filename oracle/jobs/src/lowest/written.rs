//! The order in which entries stand, and how they cite each other.

use super::nodes::{Child, Nodes};
use crate::make::*;
use crate::random::Random;
use crate::record::{Record, Reference};

pub struct Written<'a> {
    nodes: &'a Nodes,
    pub order: Vec<usize>,
    /// Where each node stands among all entries, and its number in its table.
    place: Vec<usize>,
    pub number: Vec<u16>,
    named: Vec<bool>,
}

impl<'a> Written<'a> {
    /// Children ahead of their parents, or any order: an entry behind is cited by name.
    pub fn new(nodes: &'a Nodes, random: &mut Random) -> Self {
        let count = nodes.all.len();
        let mut order: Vec<usize> = (0..count).collect();
        if random.chance(3, 4) {
            random.shuffle(&mut order);
        }
        let (mut place, mut number, mut next) = (vec![0; count], vec![0; count], [0, 0]);
        for (at, node) in order.iter().enumerate() {
            let table = usize::from(nodes.all[*node].is_bootstrap());
            place[*node] = at;
            number[*node] = next[table];
            next[table] += 1;
        }
        let named = (0..count).map(|_| random.chance(1, 5)).collect();
        let mut written = Written {
            nodes,
            order,
            place,
            number,
            named,
        };
        written.name_those_behind();
        written
    }

    fn name_those_behind(&mut self) {
        for (at, parent) in self.nodes.all.iter().enumerate() {
            for child in &parent.children {
                if let Child::Node(child) = child
                    && self.place[*child] > self.place[at]
                {
                    self.named[*child] = true;
                }
            }
        }
    }

    pub fn entry(&self, node: usize, random: &mut Random) -> Record {
        let entry = &self.nodes.all[node];
        let children = entry.children.iter().map(|child| match child {
            Child::Raw(number) => Reference::Raw(*number),
            Child::Node(child) => self.cited(*child, self.place[node], random),
        });
        let mut children: Vec<Reference> = children.collect();
        match entry.is_bootstrap() {
            true => bootstrap(children.remove(0), children),
            false => constant(entry.tag, &entry.literal, children),
        }
    }

    /// A node as the entry at a place cites it.
    pub fn cited(&self, node: usize, from: usize, random: &mut Random) -> Reference {
        let behind = self.place[node] > from;
        match behind || self.named[node] && random.chance(1, 2) {
            true => Reference::Name(vec![node as u8]),
            false => Reference::Entry(self.number[node]),
        }
    }

    pub fn name(&self, node: usize) -> Option<Record> {
        let name = vec![node as u8];
        let to = Reference::Entry(self.number[node]);
        self.named[node].then(|| match self.nodes.all[node].is_bootstrap() {
            true => Record::NameBootstrap(name, to),
            false => Record::NameConstant(name, to),
        })
    }
}
