//! Refusals in words.

use crate::{Buffer, Refusal};
use std::fmt;

impl fmt::Display for Buffer {
    fn fmt(&self, f: &mut fmt::Formatter<'_>) -> fmt::Result {
        f.write_str(match self {
            Buffer::Image => "the image",
            Buffer::Spans => "the lists of spans",
            Buffer::Blocks => "the lists of blocks",
            Buffer::Hex => "the text",
        })
    }
}

impl fmt::Display for Refusal {
    fn fmt(&self, f: &mut fmt::Formatter<'_>) -> fmt::Result {
        write!(f, "refused {}: ", self.number())?;
        match *self {
            Refusal::BankCount => write!(f, "there are not 1 to 16 banks"),
            Refusal::BankNumber { bank } => {
                write!(f, "bank {bank} has a number or a fill bit beyond its limit, or is filled and has size 0")
            }
            Refusal::BanksOverlap { first, second } => write!(f, "banks {first} and {second} overlap in the output"),
            Refusal::Malformed { place } => {
                write!(f, "a count, kind, bank number, state, value range, choice or file is malformed, at {place}")
            }
            Refusal::RowLength { row, cells, nodes } => {
                write!(f, "row {row}, counted from 0, has {cells} cells, and there are {nodes} nodes")
            }
            Refusal::PositionPast { node, .. } => write!(f, "at node {node} a position would pass 4,294,967,295"),
            Refusal::LabelOffBoundary { node, .. } => write!(f, "the label at node {node} is between two addresses"),
            Refusal::Unresolved { passes } => write!(f, "the last of {passes} passes ended unresolved"),
            Refusal::DefaultBank { node, .. } => write!(f, "node {node} uses bank 0 though there are others or it is closed"),
            Refusal::PastBank { node, .. } => write!(f, "node {node} ends past its bank's size"),
            Refusal::NoOutput { node, .. } => write!(f, "node {node} is written in a bank that has no place in the output"),
            Refusal::Overlap { start, size: 0, .. } => write!(f, "a placement would have the mark at bit {start} strictly inside it"),
            Refusal::Overlap { start, size, .. } => {
                write!(f, "a placement would share a bit with what stands from bit {start} on, {size} bits")
            }
            Refusal::StoreFull { node, .. } => write!(f, "at node {node} 512 placements, or for a mark 512 marks, are stored already"),
            Refusal::TooShort { buffer, .. } => write!(f, "the room for {buffer} is too short"),
            Refusal::BadPart => write!(f, "a part of an image is empty, outside it, or not on byte edges"),
            Refusal::PartlyCovered => write!(f, "the overlay covers a range only in part"),
            Refusal::FillBitLost => write!(f, "the way back to form 1 would drop a fill bit of one"),
            Refusal::OffProfile { rule: 1, .. } => write!(f, "the page size has not exactly one bit set"),
            Refusal::OffProfile { rule: 2, at } => write!(f, "an alignment of bank or node {at} has not exactly one bit set"),
            Refusal::OffProfile { rule: 3, at } => write!(f, "the offset of bank {at} is not on a page"),
            Refusal::OffProfile { rule: 4, at } => write!(f, "the size of bank {at} is none, or not of whole pages"),
            Refusal::OffProfile { rule: 5, at } => write!(f, "the address unit of bank {at} is neither 8 nor 16"),
            Refusal::OffProfile { rule: 6, at } => write!(f, "addr at node {at} goes to no multiple of its bank's unit"),
            Refusal::OffProfile { rule, at } => write!(f, "rule {rule} of the profile is broken, at {at}"),
            Refusal::Unknown { place, .. } => write!(f, "this crate has no words for it, at {place}"),
        }
    }
}

impl std::error::Error for Refusal {}
