//! A book without a history: the tree, and the least cost of a plan.

use crate::branching::Arc;
use crate::priced_sets::PricedSet;
use crate::row_charges::PricedRow;
use crate::run_settings::Settings;
use crate::prices::Priced;
use crate::schedule::Feasible;
use crate::solomon_reader::Instance;
use crate::tenths::Tenths;

#[derive(Clone, Copy, Debug, PartialEq, Eq)]
pub struct Gap {
    pub cost: Option<Tenths>,
    pub bound: Tenths,
}

pub enum Offered<'i> {
    Better { before: Option<Tenths> },
    NotBetter { best: Tenths, plan: Feasible<'i> },
}

#[derive(Clone, Copy, Debug, PartialEq, Eq)]
pub enum BookFault {
    Memory,
    JournalFull,
    NotALeaf,
    NotHigher,
    Lower,
    LeavesFull,
    SetsFull,
}

/// A leaf with its prices, or a split with the numbers of both children.
enum Node<'i> {
    Leaf(Priced<'i>),
    Split { arc: Arc, used: u32, unused: u32 },
}

/// The customers of a row.
fn members_of(row: &PricedRow) -> [u16; 3] {
    [row.first, row.second, row.third]
}

/// The members of a set, and what it needs.
type Listed = (Vec<u16>, u32);

pub struct Book<'i> {
    instance: &'i Instance,
    nodes: Vec<Node<'i>>,
    cost: Option<Tenths>,
}

fn words<T: ToString>(numbers: &[T]) -> String {
    numbers.iter().map(T::to_string).collect::<Vec<String>>().join(" ")
}

impl<'i> Book<'i> {
    pub fn new(instance: &'i Instance, root: Priced<'i>, cost: Option<Tenths>) -> Book<'i> {
        Book { instance, nodes: vec![Node::Leaf(root)], cost }
    }

    pub fn leaf(&self, number: u32) -> Option<&Priced<'i>> {
        match self.nodes.get(number as usize)? {
            Node::Leaf(leaf) => Some(leaf),
            Node::Split { .. } => None,
        }
    }

    fn all_leaves(&self) -> impl Iterator<Item = &Priced<'i>> {
        (0..self.nodes.len() as u32).filter_map(|number| self.leaf(number))
    }

    pub fn leaves(&self) -> usize {
        self.all_leaves().count()
    }

    pub fn gap(&self) -> Gap {
        let most = i128::from(self.instance.above_ceiling());
        let bound = self.all_leaves().map(Priced::value).min().unwrap_or(most).min(most);
        Gap { cost: self.cost, bound: Tenths::new(bound as u64).expect("a bound") }
    }

    pub fn offer(&mut self, plan: Feasible<'i>) -> Offered<'i> {
        match self.cost {
            Some(best) if best <= plan.cost() => Offered::NotBetter { best, plan },
            before => {
                self.cost = Some(plan.cost());
                Offered::Better { before }
            }
        }
    }

    pub fn reprice(&mut self, number: u32, priced: Priced<'i>) -> Result<(), (Priced<'i>, BookFault)> {
        let Some(leaf) = self.leaf(number) else { return Err((priced, BookFault::NotALeaf)) };
        if priced.value() <= leaf.value() {
            return Err((priced, BookFault::NotHigher));
        }
        self.nodes[number as usize] = Node::Leaf(priced);
        Ok(())
    }

    pub fn split(
        &mut self,
        number: u32,
        arc: Arc,
        used: Priced<'i>,
        unused: Priced<'i>,
    ) -> Result<(u32, u32), (Priced<'i>, Priced<'i>, BookFault)> {
        let Some(leaf) = self.leaf(number) else { return Err((used, unused, BookFault::NotALeaf)) };
        if used.value().min(unused.value()) < leaf.value() {
            return Err((used, unused, BookFault::Lower));
        }
        let first = self.nodes.len() as u32;
        self.nodes[number as usize] = Node::Split { arc, used: first, unused: first + 1 };
        self.nodes.extend([Node::Leaf(used), Node::Leaf(unused)]);
        Ok((first, first + 1))
    }

    /// The sets that have a price at a leaf, each once.
    pub fn listed(&self) -> Vec<Listed> {
        let mut listed: Vec<Listed> = vec![];
        for set in self.all_leaves().flat_map(|leaf| leaf.sets()) {
            let listing = (set.members.0.clone(), set.need);
            if !listed.contains(&listing) {
                listed.push(listing);
            }
        }
        listed
    }

    /// The rows that have a price at a leaf, each once, in increasing order.
    pub fn listed_rows(&self) -> Vec<[u16; 3]> {
        let mut listed: Vec<[u16; 3]> = self.all_leaves().flat_map(|leaf| leaf.rows()).map(members_of).collect();
        listed.sort();
        listed.dedup();
        listed
    }

    /// The lines of a leaf's prices.
    fn leaf_lines(&self, leaf: &Priced<'i>, settings: &Settings) -> String {
        let (listed, rows) = (self.listed(), self.listed_rows());
        let place = |set: &PricedSet| listed.iter().position(|(members, _)| *members == set.members.0).expect("a set") + 1;
        let mut sets: Vec<(usize, u64)> = leaf.sets().iter().map(|set| (place(set), set.price)).collect();
        sets.sort();
        let row_place = |row: &PricedRow| rows.iter().position(|members| *members == members_of(row)).expect("a row") + 1;
        let rows: Vec<(usize, u64)> = leaf.rows().iter().map(|row| (row_place(row), row.price)).collect();
        let line = |name: &str, pairs: &[(usize, u64)]| {
            let pairs: String = pairs.iter().map(|(place, price)| format!(" {place} {price}")).collect();
            format!("{name}{pairs}\n")
        };
        let sets = if settings.sets + settings.rows > 0 { line("M", &sets) } else { String::new() };
        let rows = if settings.rows > 0 { line("Q", &rows) } else { String::new() };
        format!("P {}\n{sets}{rows}", words(leaf.prices()))
    }

    /// The lines of the nodes from a number on, in preorder.
    fn lines_from(&self, number: u32, settings: &Settings) -> String {
        match &self.nodes[number as usize] {
            Node::Leaf(leaf) => self.leaf_lines(leaf, settings),
            Node::Split { arc, used, unused } => {
                let children = [used, unused].map(|child| self.lines_from(*child, settings));
                format!("S {} {}\n{}", arc.from, arc.to, children.concat())
            }
        }
    }

    /// The text of the certificate of the tree as it stands, with rows, with sets or of version 2.
    pub fn certificate(&self, settings: &Settings) -> String {
        let bound = self.gap().bound.get();
        let first = match (settings.sets, settings.rows) {
            (0, 0) => "VRPTW-CERT 2",
            (_, 0) => "VRPTW-SETS 1",
            _ => "VRPTW-ROWS 1",
        };
        let sets: String = self.listed().iter().map(|(members, need)| format!("S {need} {}\n", words(members))).collect();
        let rows: String = self.listed_rows().iter().map(|members| format!("R {}\n", words(members))).collect();
        format!(
            "{first}\nINSTANCE {}\nCUSTOMERS {}\nNEIGHBOURS {}\nBOUND {}.{}\n{sets}{rows}TREE\n{}END\n",
            self.instance.name,
            self.instance.customer_count(),
            settings.neighbours,
            bound / 10,
            bound % 10,
            self.lines_from(0, settings)
        )
    }
}
