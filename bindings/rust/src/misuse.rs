//! What a recorder, or the writer of a file, turns away before the library is asked.

use crate::Kind;
use std::fmt;

/// What was asked of a [`Recorder`](crate::Recorder) and cannot be. Banks, nodes and rows count from 0, passes from 1.
#[derive(Clone, Copy, Debug, PartialEq, Eq)]
#[non_exhaustive]
#[allow(missing_docs)]
pub enum Misuse {
    /// A 17th bank.
    TooManyBanks,
    /// A 4,097th node.
    TooManyNodes,
    /// Over 16 rows, not counting rows at the end that are as the one before.
    TooManyRows { rows: usize },
    /// Banks and nodes are told before the first pass begins.
    PassesBegan,
    /// No pass has begun.
    NoPass,
    /// There is no such bank.
    NoSuchBank { bank: u32 },
    /// The node is of another recorder.
    NoSuchNode { node: usize },
    /// A pass said nothing of a node.
    NodeMissing { pass: usize, node: usize, kind: Kind },
    /// A pass said something of a node twice.
    NodeTwice { pass: usize, node: usize },
    /// Data of declared size is told another size than in pass 1.
    DeclaredMoved { pass: usize, node: usize, first: u32, number: u32 },
    /// A value for a node that has none.
    NoValueRead { node: usize, kind: Kind },
    /// A value that is shorter than its bits.
    ShortValue { node: usize, bits: u32, given: usize },
    /// The last pass gives a written node another size than its value has bits.
    ValueSize { node: usize, size: u32, bits: u32 },
    /// The values have over 4,294,967,295 bits.
    ValuesTooLong { node: usize },
    /// A name or place with a tab, a line end or a control character in it.
    BadName { node: usize },
    /// A row has not a cell for each node.
    RowLength { row: usize, cells: usize, nodes: usize },
    /// Form 1 has no fill bits, and the bank's is one.
    FillBit { bank: usize },
    /// Form 1 leaves bank 0 open where it is the only bank, and here it is closed.
    Closed,
    /// Form 2 closes bank 0, and here it is the only bank and open.
    Open,
    /// The file, or a field of it, would be longer than its form allows.
    FileTooLong { bytes: usize, most: usize },
}

impl fmt::Display for Misuse {
    fn fmt(&self, f: &mut fmt::Formatter<'_>) -> fmt::Result {
        match *self {
            Misuse::TooManyBanks => write!(f, "there are 16 banks already"),
            Misuse::TooManyNodes => write!(f, "there are 4,096 nodes already"),
            Misuse::TooManyRows { rows } => write!(f, "{rows} passes differ from the one before, and a layout has at most 16 rows"),
            Misuse::PassesBegan => write!(f, "banks and nodes are told before the first pass begins"),
            Misuse::NoPass => write!(f, "no pass has begun"),
            Misuse::NoSuchBank { bank } => write!(f, "there is no bank {bank}"),
            Misuse::NoSuchNode { node } => write!(f, "there is no node {node}"),
            Misuse::NodeMissing { pass, node, kind } => write!(f, "pass {pass} says nothing of node {node} ({kind})"),
            Misuse::NodeTwice { pass, node } => write!(f, "pass {pass} says something of node {node} twice"),
            Misuse::DeclaredMoved { pass, node, first, number } => {
                write!(f, "pass {pass} gives node {node}, data of declared size, {number} bits, and pass 1 gave it {first}")
            }
            Misuse::NoValueRead { node, kind } => write!(f, "node {node} ({kind}) takes no value"),
            Misuse::ShortValue { node, bits, given } => {
                write!(f, "the value of node {node} is to have {bits} bits, and {given} bytes are given")
            }
            Misuse::ValueSize { node, size, bits } => {
                write!(f, "the last pass gives node {node} {size} bits, and its value has {bits}")
            }
            Misuse::ValuesTooLong { node } => write!(f, "the value of node {node} would stand past bit 4,294,967,295 of the values"),
            Misuse::BadName { node } => write!(f, "the name or place of node {node} has a tab, a line end or a control character in it"),
            Misuse::RowLength { row, cells, nodes } => {
                write!(f, "row {row}, counted from 0, has {cells} cells, and there are {nodes} nodes")
            }
            Misuse::FillBit { bank } => write!(f, "form 1 has no fill bits, and that of bank {bank} is one"),
            Misuse::Closed => write!(f, "form 1 leaves bank 0 open, and here it is the only bank and closed"),
            Misuse::Open => write!(f, "form 2 closes bank 0, and here it is the only bank and open"),
            Misuse::FileTooLong { bytes, most } => write!(f, "a file or field of {bytes} bytes, and there may be {most}"),
        }
    }
}

impl std::error::Error for Misuse {}
