//! A certificate, read without a look at its faults.

use crate::shim::{AllocError, Global, Vec};
use crate::tenths::Tenths;

#[derive(Debug)]
pub struct ListedSet {
    pub members: Vec<u16>,
    pub need: u32,
}

#[derive(Clone, Copy, Debug, PartialEq, Eq)]
pub struct SetPrice {
    pub set: u16,
    pub price: u64,
}

#[derive(Clone, Copy, Debug, PartialEq, Eq)]
pub struct SubsetRow {
    pub first: u16,
    pub second: u16,
    pub third: u16,
}

#[derive(Clone, Copy, Debug, PartialEq, Eq)]
pub struct RowPrice {
    pub row: u16,
    pub price: u64,
}

#[derive(Debug)]
pub enum Version {
    One,
    Two,
    WithSets(Vec<ListedSet>),
    WithRows { sets: Vec<ListedSet>, rows: Vec<SubsetRow> },
}

impl Version {
    pub fn sets(&self) -> &[ListedSet] {
        match self {
            Version::One | Version::Two => &[],
            Version::WithSets(sets) | Version::WithRows { sets, .. } => sets.as_slice(),
        }
    }

    pub fn rows(&self) -> &[SubsetRow] {
        match self {
            Version::WithRows { rows, .. } => rows.as_slice(),
            _ => &[],
        }
    }
}

#[derive(Debug)]
pub enum CertNode {
    Split { from: u16, to: u16 },
    Leaf(Vec<i64>),
    SetLeaf { prices: Vec<i64>, set_prices: Vec<SetPrice>, row_prices: Vec<RowPrice> },
}

#[derive(Debug)]
pub struct CertParts {
    pub version: Version,
    pub neighbours: u32,
    pub bound: Tenths,
    pub nodes: Vec<CertNode>,
}

#[derive(Debug)]
pub struct Cert {
    parts: CertParts,
}

impl Cert {
    pub fn read(path: &str) -> Cert {
        let text = std::fs::read_to_string(path).unwrap();
        let word = |head: &str| text.lines().find_map(|line| line.strip_prefix(head)).unwrap();
        let tenths = word("BOUND ").replace('.', "").parse().unwrap();
        Cert {
            parts: CertParts {
                version: version_of(&text),
                neighbours: word("NEIGHBOURS ").parse().unwrap(),
                bound: Tenths::new(tenths).unwrap(),
                nodes: nodes_of(&text),
            },
        }
    }

    pub fn parts(&self) -> &CertParts {
        &self.parts
    }

    pub fn tree(&self, _: Global) -> Result<CertTree<'_>, AllocError> {
        Ok(tree_of(&mut self.parts.nodes.iter()))
    }
}

/// A tree, its prices lent from the nodes that it was made of.
pub enum CertTree<'a> {
    Leaf { prices: &'a [i64], set_prices: &'a [SetPrice], row_prices: &'a [RowPrice] },
    Split { from: u16, to: u16, used: Box<CertTree<'a>>, unused: Box<CertTree<'a>> },
}

/// The tree whose nodes come next.
fn tree_of<'a>(nodes: &mut std::slice::Iter<'a, CertNode>) -> CertTree<'a> {
    match nodes.next().expect("a node") {
        CertNode::Leaf(prices) => CertTree::Leaf { prices, set_prices: &[], row_prices: &[] },
        CertNode::SetLeaf { prices, set_prices, row_prices } => CertTree::Leaf { prices, set_prices, row_prices },
        CertNode::Split { from, to } => {
            let used = Box::new(tree_of(nodes));
            CertTree::Split { from: *from, to: *to, used, unused: Box::new(tree_of(nodes)) }
        }
    }
}

/// The numbers of a line behind its first word.
fn numbers(line: &str) -> impl Iterator<Item = i64> + '_ {
    line.split(' ').skip(1).map(|word| word.parse().unwrap())
}

/// The version, with the sets that stand before the tree.
fn version_of(text: &str) -> Version {
    let mut lines = text.lines();
    match lines.next() {
        Some("VRPTW-CERT 1") => Version::One,
        Some("VRPTW-CERT 2") => Version::Two,
        Some("VRPTW-ROWS 1") => {
            let listed: std::vec::Vec<&str> = lines.skip(4).take_while(|line| *line != "TREE").collect();
            let is = |word: &'static str| listed.iter().copied().filter(move |line| line.starts_with(word));
            Version::WithRows { sets: Vec(is("S ").map(set_of).collect()), rows: Vec(is("R ").map(row_of).collect()) }
        }
        _ => Version::WithSets(Vec(lines.skip(4).take_while(|line| *line != "TREE").map(set_of).collect())),
    }
}

fn row_of(line: &str) -> SubsetRow {
    let three: std::vec::Vec<i64> = numbers(line).collect();
    SubsetRow { first: three[0] as u16, second: three[1] as u16, third: three[2] as u16 }
}

fn set_of(line: &str) -> ListedSet {
    let mut words = numbers(line);
    let need = words.next().unwrap() as u32;
    ListedSet { need, members: Vec(words.map(|i| i as u16).collect()) }
}

/// The nodes; the prices of a leaf's sets stand in a line of their own.
fn nodes_of(text: &str) -> Vec<CertNode> {
    let mut nodes = std::vec::Vec::new();
    for line in text.lines().skip_while(|line| *line != "TREE") {
        let mut words = numbers(line);
        match line.split(' ').next() {
            Some("S") => nodes.push(CertNode::Split {
                from: words.next().unwrap() as u16,
                to: words.next().unwrap() as u16,
            }),
            Some("P") => nodes.push(CertNode::Leaf(Vec(words.collect()))),
            Some("M") => {
                let Some(CertNode::Leaf(prices)) = nodes.pop() else {
                    panic!("M without P");
                };
                let pairs: std::vec::Vec<i64> = words.collect();
                let set_prices = pairs.chunks(2).map(|m| SetPrice { set: m[0] as u16, price: m[1] as u64 });
                nodes.push(CertNode::SetLeaf { prices, set_prices: Vec(set_prices.collect()), row_prices: Vec(std::vec::Vec::new()) });
            }
            Some("Q") => {
                let Some(CertNode::SetLeaf { prices, set_prices, .. }) = nodes.pop() else {
                    panic!("Q without M");
                };
                let pairs: std::vec::Vec<i64> = words.collect();
                let row_prices = pairs.chunks(2).map(|m| RowPrice { row: m[0] as u16, price: m[1] as u64 });
                nodes.push(CertNode::SetLeaf { prices, set_prices, row_prices: Vec(row_prices.collect()) });
            }
            _ => {}
        }
    }
    Vec(nodes)
}
