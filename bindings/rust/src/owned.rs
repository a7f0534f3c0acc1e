//! A layout that owns its lists, for callers who would rather not keep ten slices in step.

use crate::records::{room, write_hex, write_srec, Width};
use crate::{build, get_blocks, hex, map, Banks, Buffer, Choices, Kind, Layout, Map, Nodes, Refusal, Spans, State, Values};
use crate::{FILL, HAS_ALIGN, HAS_OFFSET, HAS_SIZE, NO_OFFSET};

/// A bank.
#[derive(Clone, Copy, Debug, PartialEq, Eq)]
pub struct Bank {
    /// Bits to an address.
    pub unit: u16,
    /// The first address.
    pub start: i64,
    /// Its size in bits.
    pub size: Option<u32>,
    /// Where its first bit is in the image.
    pub offset: Option<u32>,
    /// Its label alignment in bits.
    pub align: Option<u32>,
    /// Whether its range is filled.
    pub fill: bool,
    /// What the range has where no item is written: ones, or zeros.
    pub ones: bool,
}

impl Bank {
    /// A bank of this address unit that starts at 0 and has nothing else.
    pub fn new(unit: u16) -> Bank {
        Bank { unit, start: 0, size: None, offset: None, align: None, fill: false, ones: false }
    }

    /// The address at a position, in bits of the bank, and how many bits past it that is.
    ///
    /// ```
    /// let words = denkumari::Bank { start: 64, ..denkumari::Bank::new(10) };
    /// assert_eq!(words.address(25), (66, 5));
    /// ```
    pub fn address(&self, position: u32) -> (i64, u32) {
        let unit = u32::from(self.unit.max(1)); // a unit of 0 is refused by every call
        (self.start.saturating_add(i64::from(position / unit)), position % unit)
    }

    pub(crate) fn flags(&self) -> u8 {
        let flag = |set: bool, flag: u8| if set { flag } else { 0 };
        flag(self.size.is_some(), HAS_SIZE)
            | flag(self.offset.is_some(), HAS_OFFSET)
            | flag(self.align.is_some(), HAS_ALIGN)
            | flag(self.fill, FILL)
    }
}

/// A label or a written item.
#[derive(Clone, Copy, Debug, PartialEq, Eq)]
pub struct Span {
    /// Its address in whole units.
    pub address: i64,
    /// Its offset in the image in bits.
    pub offset: Option<u64>,
    /// Its size in bits, 0 for a label.
    pub size: u64,
}

/// A run of bits in the image.
#[derive(Clone, Copy, Debug, PartialEq, Eq)]
pub struct Block {
    /// Its first bit.
    pub offset: u64,
    /// Its size in bits.
    pub size: u64,
}

/// What was built.
#[derive(Clone, Debug, PartialEq, Eq)]
pub struct Built {
    /// Pass K, the passes run, the length in bits and the number of spans.
    pub layout: Layout,
    /// The image, in whole bytes; bits past its length are zero.
    pub image: Vec<u8>,
    /// Labels and written items, in the order of the nodes.
    pub spans: Vec<Span>,
    /// Of each span its node.
    pub nodes: Vec<usize>,
    /// The blocks that the spans make.
    pub blocks: Vec<Block>,
}

impl Built {
    /// The span of a label or of a written item, by its number ([`Node::number`](crate::Node::number)); other nodes have none.
    pub fn span(&self, node: usize) -> Option<Span> {
        self.nodes.binary_search(&node).ok().and_then(|i| self.spans.get(i)).copied()
    }

    /// The image in hex, four bits a digit, the last one padded with zero bits.
    pub fn digits(&self) -> Result<String, Refusal> {
        let mut digits = vec![0; self.layout.length.div_ceil(4) as usize];
        hex(&self.image, self.layout.length, &mut digits).map(str::to_string)
    }

    /// The blocks as Intel HEX, the image's first byte at address `load`. Refused 16 where a block is not on byte edges, and 4 where an address is past
    /// 4,294,967,295; never 14, since the text is given [`room`](crate::records::room).
    pub fn intel_hex(&self, load: u32) -> Result<String, Refusal> {
        self.text(&self.blocks, |starts, sizes, text| write_hex(&self.image, starts, sizes, load, text))
    }

    /// Every byte of the image as Intel HEX, gaps and fill too, as `denkumari ihex --whole` writes it: items may stand off byte edges. Refused 4 alone.
    pub fn whole_intel_hex(&self, load: u32) -> Result<String, Refusal> {
        self.text(&self.whole(), |starts, sizes, text| write_hex(&self.image, starts, sizes, load, text))
    }

    /// The same as S-records; 4 also where an address does not fit the width.
    pub fn s_records(&self, load: u32, width: Width) -> Result<String, Refusal> {
        self.text(&self.blocks, |starts, sizes, text| write_srec(&self.image, starts, sizes, load, width, text))
    }

    /// Every byte of the image as S-records.
    pub fn whole_s_records(&self, load: u32, width: Width) -> Result<String, Refusal> {
        self.text(&self.whole(), |starts, sizes, text| write_srec(&self.image, starts, sizes, load, width, text))
    }

    /// The first block that is not on byte edges, for which records are refused 16.
    pub fn ragged_block(&self) -> Option<Block> {
        self.blocks.iter().copied().find(|block| block.offset % 8 != 0 || block.size % 8 != 0)
    }

    /// The image as one block; an empty one has none.
    fn whole(&self) -> Vec<Block> {
        let size = 8 * self.image.len() as u64;
        Some(Block { offset: 0, size }).filter(|_| size > 0).into_iter().collect()
    }

    fn text(&self, blocks: &[Block], write: impl FnOnce(&[u64], &[u64], &mut [u8]) -> Result<usize, Refusal>) -> Result<String, Refusal> {
        let starts: Vec<u64> = blocks.iter().map(|block| block.offset).collect();
        let sizes: Vec<u64> = blocks.iter().map(|block| block.size).collect();
        let mut text = vec![0; room(self.image.len(), blocks.len())];
        let count = write(&starts, &sizes, &mut text)?;
        text.truncate(count);
        // records are digits, letters, colons and line ends
        Ok(String::from_utf8(text).unwrap_or_default())
    }
}

/// Banks, nodes, rows and values, owned. A row has a cell, a number and a [`State`], for each node; one that has more or fewer is refused by
/// [`Program::build`] with its number. Somebody who writes an assembler may like [`Recorder`](crate::Recorder) better, which counts for itself.
///
/// ```
/// use denkumari::{records::Width, Bank, Kind, Program, State::Resolved};
/// let mut program = Program::new(10);
/// program.bank(Bank::new(8));
/// program.bank(Bank { start: 64, size: Some(40), offset: Some(0), fill: true, ..Bank::new(10) });
/// program.node(Kind::Switch, 1).node(Kind::Label, 0).node(Kind::Data, 0).node(Kind::Reserve, 0).node(Kind::Instruction, 16);
/// program.row(&[(0, Resolved), (0, Resolved), (10, Resolved), (10, Resolved), (10, Resolved)]);
/// program.values(&[0xff, 0xc0, 0x2a, 0x80]);
/// let built = program.build(1024)?;
/// assert_eq!(built.image, [0xff, 0xc0, 0x02, 0xa8, 0x00]);
/// assert_eq!(built.digits()?, "ffc002a800");
/// assert_eq!(built.blocks.len(), 2);
/// // its blocks have ten bits each, so that no record can hold them, and the whole image has whole bytes
/// assert_eq!(built.intel_hex(0).unwrap_err().number(), 16);
/// assert_eq!(built.whole_intel_hex(0x8000)?, ":05800000FFC002A80012\n:00000001FF\n");
/// // node 4, the instruction, is two words behind the bank's start
/// assert_eq!(built.span(4).map(|span| (span.address, span.offset)), Some((66, Some(20))));
/// # Ok::<(), denkumari::Refusal>(())
/// ```
#[derive(Clone, Debug, Default)]
pub struct Program {
    pub(crate) banks: Vec<Bank>,
    pub(crate) kinds: Vec<Kind>,
    pub(crate) operands: Vec<u32>,
    pub(crate) rows: Vec<Vec<(u32, State)>>,
    pub(crate) values: Values,
    pub(crate) limit: u8,
    pub(crate) choices: Choices,
}

impl Program {
    /// An empty program with this pass limit.
    pub fn new(limit: u8) -> Program {
        Program { limit, ..Program::default() }
    }

    /// One bank more.
    pub fn bank(&mut self, bank: Bank) -> &mut Program {
        self.banks.push(bank);
        self
    }

    /// One node more: its kind and its operand, a bank for a switch, a depth for a label or constant, a first bit in the values for a written item.
    pub fn node(&mut self, kind: Kind, operand: u32) -> &mut Program {
        self.kinds.push(kind);
        self.operands.push(operand);
        self
    }

    /// One row more: a number and a state for each node.
    pub fn row(&mut self, cells: &[(u32, State)]) -> &mut Program {
        self.rows.push(cells.to_vec());
        self
    }

    /// What is chosen: the fill, whether bank 0 is closed, a page size. [`Choices::default`] if this is not called.
    pub fn choices(&mut self, choices: Choices) -> &mut Program {
        self.choices = choices;
        self
    }

    /// The choices in force.
    pub fn chosen(&self) -> &Choices {
        &self.choices
    }

    /// The bytes that items are taken from.
    pub fn values(&mut self, bytes: &[u8]) -> &mut Program {
        self.values = Values::from(bytes);
        self
    }

    /// The first `bits` bits of `from`, put behind the values that there are; answers the operand of an item that has them. See [`Values::append`].
    pub fn append_bits(&mut self, from: &[u8], bits: u32) -> Option<u32> {
        self.values.append(from, bits)
    }

    /// Asks the library something of the tables, if every row has a cell for each node.
    fn asked<T>(&self, ask: impl FnOnce(&Banks<'_>, &Nodes<'_>) -> Result<T, Refusal>) -> Result<T, Refusal> {
        let nodes = self.kinds.len();
        if let Some((row, cells)) = self.rows.iter().enumerate().find(|(_, cells)| cells.len() != nodes) {
            return Err(Refusal::RowLength { row: row as u64, cells: cells.len() as u64, nodes: nodes as u64 });
        }
        let list = |of: fn(&Bank) -> Option<u32>| self.banks.iter().map(|bank| of(bank).unwrap_or(0)).collect::<Vec<u32>>();
        let banks = Banks {
            units: &self.banks.iter().map(|bank| bank.unit).collect::<Vec<_>>(),
            starts: &self.banks.iter().map(|bank| bank.start).collect::<Vec<_>>(),
            sizes: &list(|bank| bank.size),
            offsets: &list(|bank| bank.offset),
            aligns: &list(|bank| bank.align),
            flags: &self.banks.iter().map(Bank::flags).collect::<Vec<_>>(),
            fill_bits: &self.banks.iter().map(|bank| bank.ones as u8).collect::<Vec<_>>(),
        };
        let cells = || self.rows.iter().flatten();
        let nodes = Nodes {
            kinds: &self.kinds.iter().map(|kind| *kind as u8).collect::<Vec<_>>(),
            operands: &self.operands,
            numbers: &cells().map(|cell| cell.0).collect::<Vec<_>>(),
            states: &cells().map(|cell| cell.1 as u8).collect::<Vec<_>>(),
            rows: self.rows.len() as u64,
            values: self.values.bytes(),
            limit: self.limit,
        };
        ask(&banks, &nodes)
    }

    /// Where each node stands in the row of the last pass, as far as the layout goes: [`map`](crate::map).
    pub fn map(&self) -> Result<Map, Refusal> {
        self.asked(|banks, nodes| map(banks, nodes, self.choices))
    }

    /// Lays it out in an image of at most so many bytes; one that needs more is refused as too short. [`Program::fault`] says more of a refusal.
    pub fn build(&self, most_bytes: usize) -> Result<Built, Refusal> {
        self.asked(|banks, nodes| self.build_in(banks, nodes, most_bytes))
    }

    fn build_in(&self, banks: &Banks<'_>, nodes: &Nodes<'_>, most_bytes: usize) -> Result<Built, Refusal> {
        let most = self.kinds.len();
        let (mut addresses, mut offsets, mut sizes) = (vec![0; most], vec![0; most], vec![0; most]);
        let mut image = vec![0; most_bytes.min(4096)];
        let layout = loop {
            let spans = Spans { addresses: &mut addresses, offsets: &mut offsets, sizes: &mut sizes };
            match build(banks, nodes, self.choices, &mut image, spans) {
                // what is lent grows by itself up to the most that the caller allows
                Err(Refusal::TooShort { buffer: Buffer::Image, .. }) if image.len() < most_bytes => {
                    let more = image.len().saturating_mul(2).max(1).min(most_bytes);
                    image.resize(more, 0);
                }
                answer => break answer?,
            }
        };
        image.truncate(layout.length.div_ceil(8) as usize);
        let (mut starts, mut lengths) = (vec![0; layout.spans], vec![0; layout.spans]);
        let count = get_blocks(&offsets[..layout.spans], &sizes[..layout.spans], &mut starts, &mut lengths)?;
        let offset = |word: u64| if word == NO_OFFSET { None } else { Some(word) };
        let spans = (0..layout.spans).map(|i| Span { address: addresses[i], offset: offset(offsets[i]), size: sizes[i] }).collect();
        let blocks = (0..count).map(|i| Block { offset: starts[i], size: lengths[i] }).collect();
        let has_span = |kind: &Kind| *kind == Kind::Label || kind.is_written();
        let nodes = self.kinds.iter().enumerate().filter(|(_, kind)| has_span(kind)).map(|(node, _)| node).collect();
        Ok(Built { layout, image, spans, nodes, blocks })
    }
}
