//! A refusal with the nodes that it speaks of.

use crate::{Kind, Name, Names, Program, Refusal, Standing};
use std::fmt;

/// A node, with what is known of it.
#[derive(Clone, Debug, PartialEq, Eq)]
pub struct NodeAt {
    /// Its number, from 0.
    pub node: usize,
    /// What it is.
    pub kind: Kind,
    /// What it is called, where a [`Recorder`](crate::Recorder) was told.
    pub name: Option<Name>,
}

/// A refusal, the node at which it was met and, of refusal 12, the node that stands where that one would. It is printed in words.
#[derive(Clone, Debug, PartialEq, Eq)]
pub struct Fault {
    /// The library's refusal.
    pub refusal: Refusal,
    /// The node at which it was met.
    pub node: Option<NodeAt>,
    /// Of refusal 12: the item, reserve or mark whose start and size the refusal names.
    pub other: Option<NodeAt>,
    more: Option<String>,
}

impl Program {
    /// What a refusal of [`Program::build`] speaks of. Refusal 4 says whether its place is a count or a node, and what is wrong with it; refusal 12, which
    /// names a start and a size, is given its node, and the one that stands there, by [`Program::map`].
    ///
    /// ```
    /// use denkumari::{Bank, Kind, Program, State::Resolved};
    /// let mut program = Program::new(1);
    /// program.bank(Bank { offset: Some(0), ..Bank::new(8) }).values(&[1, 2]);
    /// program.node(Kind::Data, 0).node(Kind::Addr, 0).node(Kind::Instruction, 8);
    /// program.row(&[(8, Resolved), (4, Resolved), (8, Resolved)]);
    /// let fault = program.fault(program.build(16).unwrap_err());
    /// assert_eq!(
    ///     fault.to_string(),
    ///     "refused 12: a placement would share a bit with what stands from bit 0 on, 8 bits: node 2 (instruction) over node 0 (data)"
    /// );
    /// ```
    pub fn fault(&self, refusal: Refusal) -> Fault {
        self.named_fault(refusal, &Names::new())
    }

    pub(crate) fn named_fault(&self, refusal: Refusal, names: &Names) -> Fault {
        let (nodes, rows) = (self.kinds.len(), self.rows.len());
        let at = |node: usize| self.kinds.get(node).map(|kind| NodeAt { node, kind: *kind, name: names.get(node).cloned() });
        let (node, other, more) = match refusal {
            Refusal::Malformed { place: 0 } if nodes > 4096 => (None, None, Some(format!("{nodes} nodes, and there may be 4,096"))),
            Refusal::Malformed { place: 1 } if !(1..=16).contains(&rows) => {
                (None, None, Some(format!("{rows} rows, and there are 1 to 16")))
            }
            Refusal::Malformed { place: node } => (Some(node as usize), None, self.malformed(node as usize)),
            // alignments of banks are tried before those of nodes
            Refusal::OffProfile { rule: 2, at } if self.banks.iter().filter_map(|bank| bank.align).any(|align| align.count_ones() > 1) => {
                (None, None, Some(format!("the label alignment of bank {at}")))
            }
            Refusal::OffProfile { rule: 2 | 6, at: node }
            | Refusal::PositionPast { node, .. }
            | Refusal::LabelOffBoundary { node, .. }
            | Refusal::DefaultBank { node, .. }
            | Refusal::PastBank { node, .. }
            | Refusal::NoOutput { node, .. }
            | Refusal::StoreFull { node, .. } => (Some(node as usize), None, None),
            Refusal::Overlap { start, size, .. } => {
                let met = self.at_overlap(start, size);
                (met.map(|met| met.0), met.and_then(|met| met.1), None)
            }
            _ => (None, None, None),
        };
        Fault { refusal, node: node.and_then(at), other: other.and_then(at), more }
    }

    /// What is wrong with a node's bank, or with its range in the first row in which it is: kinds and states cannot be.
    fn malformed(&self, node: usize) -> Option<String> {
        let (kind, operand) = (*self.kinds.get(node)?, *self.operands.get(node)?);
        if kind == Kind::Switch {
            return Some(format!("there is no bank {operand}"));
        }
        let (end, read) = (self.values.bytes().len() as u64 * 8, if kind == Kind::Data { 1 } else { self.rows.len() });
        let ends = self.rows.iter().take(read).map(|row| row.get(node).map_or(0, |cell| u64::from(operand) + u64::from(cell.0)));
        let (row, past) = ends.enumerate().find(|(_, past)| *past > end)?;
        Some(format!("in row {row} it ends at bit {past} of the values, which have {end}"))
    }

    /// Of refusal 12 the node that was refused, by the map, and the one ahead of it that stands from bit `start` on with so many bits.
    fn at_overlap(&self, start: u64, size: u64) -> Option<(usize, Option<usize>)> {
        let map = self.map().ok()?;
        let node = map.stopped.filter(|stopped| stopped.why.number() == 12)?.node? as usize;
        let stands = |(standing, kind): (&Standing, &Kind)| {
            (4..=7).contains(&(*kind as u8)) && standing.output == Some(start) && u64::from(standing.size) == size
        };
        Some((node, map.nodes.iter().zip(&self.kinds).take(node).position(stands)))
    }
}

impl fmt::Display for NodeAt {
    fn fmt(&self, f: &mut fmt::Formatter<'_>) -> fmt::Result {
        write!(f, "node {} ({})", self.node, self.kind)?;
        match &self.name {
            Some(Name { name, place }) if place.is_empty() => write!(f, " {name}"),
            Some(Name { name, place }) if name.is_empty() => write!(f, " at {place}"),
            Some(Name { name, place }) => write!(f, " {name} at {place}"),
            None => Ok(()),
        }
    }
}

impl fmt::Display for Fault {
    fn fmt(&self, f: &mut fmt::Formatter<'_>) -> fmt::Result {
        write!(f, "{}", self.refusal)?;
        match (&self.node, &self.other) {
            (Some(node), Some(other)) => write!(f, ": {node} over {other}")?,
            (Some(node), None) => write!(f, ": {node}")?,
            _ => {}
        }
        self.more.iter().try_for_each(|more| write!(f, ": {more}"))
    }
}

impl std::error::Error for Fault {}
