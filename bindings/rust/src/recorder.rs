//! What an assembler tells pass by pass, kept until the library is asked.

use crate::{Bank, Built, Choices, Fault, Form, Kind, Misuse, Names, Program, Refusal, Standing, State, Values};
use std::fmt;

/// A node of a [`Recorder`].
#[derive(Clone, Copy, Debug, PartialEq, Eq, PartialOrd, Ord, Hash)]
pub struct Node(usize);

impl Node {
    /// Its number, from 0, as refusals, maps and the names file have it.
    pub fn number(self) -> usize {
        self.0
    }
}

/// Where a node stands in a pass.
#[derive(Clone, Copy, Debug, PartialEq, Eq)]
pub struct Place {
    /// The bank that it stands in.
    pub bank: u32,
    /// The position that it sees, in bits of its bank.
    pub position: u32,
    /// The bank's own address there, in whole units.
    pub address: i64,
    /// How many bits past that address it stands; a label may have none in the last pass.
    pub past: u32,
    /// Its place in the output, in bits.
    pub output: Option<u64>,
    /// The bits of an item or a reserve, else 0.
    pub size: u32,
}

/// Records a layout as an assembler comes to know it: banks and nodes once, in the order of the source; then, for each pass, [`Recorder::begin_pass`] and a
/// number and a state for each node ([`Recorder::tell`]); the bits of written items at any time ([`Recorder::value`], the newest count). Where everything
/// stands in a pass says [`Recorder::places`]: an assembler reckons no address itself. [`Recorder::build`] asks the library, [`Recorder::to_form`] gives the
/// same layout as a file, [`Recorder::names`] the names file beside it.
///
/// Nobody counts bits or cells: operands of items come from the values, and a pass that leaves out a node, or tells one twice, is turned away with the
/// node's number. Nothing needs to be told of nodes of kinds 0, 1 and 2, of which a row is not read.
///
/// ```
/// use denkumari::{Bank, Form, Kind, Misuse, Recorder, State::*};
/// let mut recorder = Recorder::new(10);
/// recorder.bank(Bank::new(8))?;
/// let flash = recorder.bank(Bank { start: 64, size: Some(40), offset: Some(0), fill: true, ..Bank::new(10) })?;
/// recorder.node(Kind::Switch, flash)?;
/// recorder.node(Kind::Label, 0)?;
/// let data = recorder.node(Kind::Data, 0)?;
/// let gap = recorder.node(Kind::Reserve, 0)?;
/// let jump = recorder.node(Kind::Instruction, 0)?;
/// recorder.begin_pass()?;
/// recorder.tell(data, 10, Resolved)?;
/// recorder.tell(gap, 10, Resolved)?;
/// // the jump is forgotten, and a file asked for
/// assert_eq!(recorder.to_form(Form::Two), Err(Misuse::NodeMissing { pass: 1, node: 4, kind: Kind::Instruction }));
/// // as far as the pass was told: the jump is the first node of which nothing is known, and it stands at word 66
/// assert_eq!(recorder.places()?.iter().map(|place| place.address).collect::<Vec<_>>(), [64, 64, 64, 65, 66]);
/// recorder.tell(jump, 10, Resolved)?;
/// recorder.value_number(data, 0x3ff, 10)?;
/// recorder.value_number(jump, 0x0aa, 10)?;
/// let built = recorder.build(1024)?;
/// assert_eq!(built.digits()?, "ffc002a800");
/// assert_eq!(built.span(jump.number()).map(|span| span.address), Some(66));
/// # Ok::<(), Box<dyn std::error::Error>>(())
/// ```
#[derive(Clone, Debug, Default)]
pub struct Recorder {
    tables: Program,
    values: Vec<Option<(Vec<u8>, u32)>>,
    pass: Option<Vec<Option<(u32, State)>>>,
    names: Names,
}

impl Recorder {
    /// Nothing yet, with this pass limit.
    pub fn new(limit: u8) -> Recorder {
        Recorder { tables: Program::new(limit), ..Recorder::default() }
    }

    /// What is chosen: the fill, whether bank 0 is closed, a page size. [`Choices::default`] if this is not called.
    pub fn choices(&mut self, choices: Choices) -> &mut Recorder {
        self.tables.choices(choices);
        self
    }

    /// One bank more; answers its number, for a switch to it. The walk begins in the first one, bank 0.
    pub fn bank(&mut self, bank: Bank) -> Result<u32, Misuse> {
        self.before_passes()?;
        if self.tables.banks.len() >= 16 {
            return Err(Misuse::TooManyBanks);
        }
        self.tables.bank(bank);
        Ok(self.tables.banks.len() as u32 - 1)
    }

    /// One node more. The operand is a bank for a switch, a depth for a label or a constant, and not read for others: items get theirs from their values.
    pub fn node(&mut self, kind: Kind, operand: u32) -> Result<Node, Misuse> {
        self.before_passes()?;
        if self.tables.kinds.len() >= 4096 {
            return Err(Misuse::TooManyNodes);
        }
        if kind == Kind::Switch && operand as usize >= self.tables.banks.len() {
            return Err(Misuse::NoSuchBank { bank: operand });
        }
        let read = matches!(kind, Kind::Switch | Kind::Label | Kind::Constant);
        self.tables.node(kind, if read { operand } else { 0 });
        self.values.push(None);
        Ok(Node(self.tables.kinds.len() - 1))
    }

    /// What a node is called and where it stands in the source, for what is said of a refusal and for the names file.
    pub fn name(&mut self, node: Node, name: &str, place: &str) -> Result<(), Misuse> {
        self.kind(node)?;
        self.names.name(node.0, name, place).map_err(|_| Misuse::BadName { node: node.0 })
    }

    /// Begins the first pass, or the next: the one before has to be complete.
    pub fn begin_pass(&mut self) -> Result<(), Misuse> {
        if self.pass.is_some() {
            let row = self.row()?;
            self.tables.row(&row);
        }
        self.pass = Some(vec![None; self.tables.kinds.len()]);
        Ok(())
    }

    /// What the pass knows of a node: the number of bits of an item or a reserve, an alignment in bits, or for `addr` a position in bits from the bank's start;
    /// and the state. The number of a constant or an assertion is not read.
    pub fn tell(&mut self, node: Node, number: u32, state: State) -> Result<(), Misuse> {
        let kind = self.kind(node)?;
        let pass = self.tables.rows.len() + 1;
        let first = self.tables.rows.first().and_then(|row| row.get(node.0)).map(|cell| cell.0);
        let cell = self.pass.as_mut().ok_or(Misuse::NoPass)?.get_mut(node.0).ok_or(Misuse::NoSuchNode { node: node.0 })?;
        match (kind, first) {
            (Kind::Data, Some(first)) if first != number => Err(Misuse::DeclaredMoved { pass, node: node.0, first, number }),
            _ if cell.is_some() => Err(Misuse::NodeTwice { pass, node: node.0 }),
            _ => {
                *cell = Some((number, state));
                Ok(())
            }
        }
    }

    /// The bits of a written item, the first `bits` of `bytes`, in the place of those that it had. In the last pass its size has to be `bits`.
    pub fn value(&mut self, node: Node, bytes: &[u8], bits: u32) -> Result<(), Misuse> {
        let kind = self.kind(node)?;
        if !kind.is_written() {
            return Err(Misuse::NoValueRead { node: node.0, kind });
        }
        let needed = bits.div_ceil(8) as usize;
        let bytes = bytes.get(..needed).ok_or(Misuse::ShortValue { node: node.0, bits, given: bytes.len() })?;
        if let Some(value) = self.values.get_mut(node.0) {
            *value = Some((bytes.to_vec(), bits));
        }
        Ok(())
    }

    /// The same, the lowest `bits` bits of a number, at most 64.
    pub fn value_number(&mut self, node: Node, number: u64, bits: u32) -> Result<(), Misuse> {
        let mut value = Values::new();
        value.append_number(number, bits).ok_or(Misuse::ShortValue { node: node.0, bits, given: 8 })?;
        self.value(node, value.bytes(), bits)
    }

    /// Where each node stands in the pass that has begun, as far as that pass was told: up to the first node that it has said nothing of, which is there too,
    /// since what a node sees depends on the nodes ahead of it alone. So it can be asked at a pass's end, and within it; each call walks the list once.
    ///
    /// The library is asked for the map of this pass's row as a layout of one row and no further pass (limit 0). By document 01 a position depends on that row
    /// alone: each pass begins at position 0, 4 to 7 "add their number", and data of declared size, whose number is the first row's, has the same in every
    /// row here. What could end the walk early is taken from it, and moves nothing: written items, whose values are not read, are reserves; labels are
    /// constants of their depth, which are aligned as they are; and every state is unresolved, so that the walk ends there (8) and no placement is tried.
    /// Left to be refused are bad banks (1, 2, 3) and a position past 4,294,967,295 (5).
    pub fn places(&self) -> Result<Vec<Place>, NotBuilt> {
        let told = self.pass.as_ref().ok_or(NotBuilt::Misuse(Misuse::NoPass))?;
        let mut walk = Program { banks: self.tables.banks.clone(), ..Program::new(0) };
        let mut row = Vec::new();
        for ((cell, kind), operand) in told.iter().zip(&self.tables.kinds).zip(&self.tables.operands) {
            walk.node(kind.walked(), *operand);
            row.push((cell.map_or(0, |cell| cell.0), State::Unresolved));
            if cell.is_none() && kind.reads_state() {
                break;
            }
        }
        let refused = |refusal| NotBuilt::Refused(Box::new(self.tables.named_fault(refusal, &self.names)));
        let map = walk.row(&row).map().map_err(refused)?;
        if let Some(Refusal::PositionPast { node, .. }) = map.stopped.map(|stopped| stopped.why) {
            return Err(refused(Refusal::PositionPast { node, passes: self.tables.rows.len() as u64 + 1 }));
        }
        Ok(map.nodes.iter().map(|standing| self.place(standing)).collect())
    }

    fn place(&self, standing: &Standing) -> Place {
        let Standing { bank, position, output, size } = *standing;
        let (address, past) = self.tables.banks.get(bank as usize).map_or((0, 0), |bank| bank.address(position));
        Place { bank: bank as u32, position, address, past, output, size }
    }

    /// The names, which `to_string` writes as a names file.
    pub fn names(&self) -> &Names {
        &self.names
    }

    /// The tables: a row for each pass, without rows at the end that are as the one before, which change nothing; each item's operand where its value
    /// stands, and behind a value zero bits where an earlier pass gave its node a greater size.
    pub fn program(&self) -> Result<Program, Misuse> {
        let mut program = self.tables.clone();
        program.row(&self.row()?);
        while program.rows.len() > 1 && program.rows.last() == program.rows.get(program.rows.len() - 2) {
            program.rows.pop();
        }
        if program.rows.len() > 16 {
            return Err(Misuse::TooManyRows { rows: program.rows.len() });
        }
        let number = |row: Option<&Vec<(u32, State)>>, node: usize| row.and_then(|row| row.get(node)).map_or(0, |cell| cell.0);
        for (node, kind) in self.tables.kinds.iter().enumerate().filter(|(_, kind)| kind.is_written()) {
            let (bytes, bits) = self.values.get(node).and_then(Option::as_ref).map_or((&[][..], 0), |(bytes, bits)| (&bytes[..], *bits));
            let read = if *kind == Kind::Data { program.rows.first() } else { program.rows.last() };
            let size = number(read, node);
            if size != bits {
                return Err(Misuse::ValueSize { node, size, bits });
            }
            let most = program.rows.iter().map(|row| number(Some(row), node)).max().unwrap_or(0);
            let too_long = Misuse::ValuesTooLong { node };
            let operand = program.values.append(bytes, bits).ok_or(too_long)?;
            program.values.append_zeros(most - bits).ok_or(too_long)?;
            if let Some(place) = program.operands.get_mut(node) {
                *place = operand;
            }
        }
        Ok(program)
    }

    /// Asks the library: an image of at most so many bytes, or why there is none, with the node by its name.
    pub fn build(&self, most_bytes: usize) -> Result<Built, NotBuilt> {
        let program = self.program().map_err(NotBuilt::Misuse)?;
        program.build(most_bytes).map_err(|refusal| NotBuilt::Refused(Box::new(program.named_fault(refusal, &self.names))))
    }

    /// The same layout as a file: [`Program::to_form`].
    pub fn to_form(&self, form: Form) -> Result<Vec<u8>, Misuse> {
        self.program()?.to_form(form)
    }

    /// The pass that has begun, if it is complete.
    fn row(&self) -> Result<Vec<(u32, State)>, Misuse> {
        let pass = self.tables.rows.len() + 1;
        let told = self.pass.as_ref().ok_or(Misuse::NoPass)?;
        let untold = |kind: &Kind| (!kind.reads_state()).then_some((0, State::Resolved));
        let cells = told.iter().zip(&self.tables.kinds).enumerate();
        cells.map(|(node, (cell, kind))| cell.or(untold(kind)).ok_or(Misuse::NodeMissing { pass, node, kind: *kind })).collect()
    }

    fn before_passes(&self) -> Result<(), Misuse> {
        if self.pass.is_some() {
            Err(Misuse::PassesBegan)
        } else {
            Ok(())
        }
    }

    fn kind(&self, node: Node) -> Result<Kind, Misuse> {
        self.tables.kinds.get(node.0).copied().ok_or(Misuse::NoSuchNode { node: node.0 })
    }
}

/// Why a [`Recorder`] has no image.
#[derive(Clone, Debug, PartialEq, Eq)]
pub enum NotBuilt {
    /// What was recorded is no layout; the library was not asked.
    Misuse(Misuse),
    /// The library refused it.
    Refused(Box<Fault>),
}

impl NotBuilt {
    /// The library's refusal, where it was asked.
    pub fn refusal(&self) -> Option<Refusal> {
        match self {
            NotBuilt::Misuse(_) => None,
            NotBuilt::Refused(fault) => Some(fault.refusal),
        }
    }
}

impl fmt::Display for NotBuilt {
    fn fmt(&self, f: &mut fmt::Formatter<'_>) -> fmt::Result {
        match self {
            NotBuilt::Misuse(misuse) => write!(f, "{misuse}"),
            NotBuilt::Refused(fault) => write!(f, "{fault}"),
        }
    }
}

impl std::error::Error for NotBuilt {}
