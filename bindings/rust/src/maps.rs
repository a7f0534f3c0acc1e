//! The map of a layout: where each node stands, as far as the layout goes, and the node at which it is refused.

use crate::{ffi, Banks, Choices, Nodes, Padding, Refusal};

/// Where a node stands in the row of the last pass.
#[derive(Clone, Copy, Debug, PartialEq, Eq)]
pub struct Standing {
    /// The bank that it stands in.
    pub bank: u64,
    /// The position that it sees, in bits of its bank.
    pub position: u32,
    /// Its place in the output, in bits.
    pub output: Option<u64>,
    /// The bits of an item or a reserve, else 0.
    pub size: u32,
}

/// A layout that stopped: why, and at which node, which refusal 8 has not.
#[derive(Clone, Copy, Debug, PartialEq, Eq)]
pub struct Stopped {
    /// The refusal that [`build`](crate::build) answers, 5 to 13.
    pub why: Refusal,
    /// The node at fault.
    pub node: Option<u64>,
}

/// The map of a layout.
#[derive(Clone, Debug, PartialEq, Eq)]
pub struct Map {
    /// Passes run.
    pub passes: u64,
    /// Where the layout is refused from 5 on; then the nodes go as far as the one at fault.
    pub stopped: Option<Stopped>,
    /// The nodes, from node 0 on.
    pub nodes: Vec<Standing>,
    /// Of each bank what these nodes lost to alignment.
    pub padding: [Padding; 16],
}

/// The map of tables; the page size of the choices is not looked at. Refused only 1 to 4, as [`build`](crate::build) refuses before its first pass.
pub fn map(banks: &Banks<'_>, nodes: &Nodes<'_>, choices: Choices) -> Result<Map, Refusal> {
    let mut lists = ffi::MapLists::new();
    let r = ffi::map(banks, nodes, choices, &mut lists);
    if r.refusal != 0 {
        return Err(Refusal::told(r.refusal, r.place, r.second, r.passes));
    }
    let node = (r.node != u64::MAX).then_some(r.node);
    let stopped = (r.stopped != 0).then(|| Stopped { why: Refusal::told(r.stopped, r.place, r.second, r.passes), node });
    let shown = (r.nodes as usize).min(lists.banks.len());
    let standing = |i: usize| Standing {
        bank: lists.banks[i],
        position: lists.positions[i],
        output: (lists.outputs[i] != u64::MAX).then_some(lists.outputs[i]),
        size: lists.sizes[i],
    };
    Ok(Map { passes: r.passes, stopped, nodes: (0..shown).map(standing).collect(), padding: r.padding })
}
