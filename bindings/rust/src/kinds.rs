//! Kinds of nodes and states, by name, with document 01's numbers.

use std::fmt;

/// What a node is.
///
/// ```
/// use denkumari::Kind;
/// assert_eq!(Kind::Reserve as u8, 7);
/// assert_eq!(Kind::try_from(9), Ok(Kind::Addr));
/// assert_eq!(Kind::try_from(11).unwrap_err().to_string(), "there is no kind 11");
/// ```
#[derive(Clone, Copy, Debug, PartialEq, Eq, PartialOrd, Ord, Hash)]
#[repr(u8)]
pub enum Kind {
    /// Nothing; it holds a place in the list.
    Nothing = 0,
    /// From here on the operand's bank.
    Switch = 1,
    /// A label; the operand is its depth.
    Label = 2,
    /// A constant; the operand is its depth.
    Constant = 3,
    /// An instruction; the operand is its first bit in the values, the number its size in bits.
    Instruction = 4,
    /// Data of declared size, which is the first row's.
    Data = 5,
    /// Data whose size may change from pass to pass.
    OpenData = 6,
    /// Bits that are kept free; the number says how many.
    Reserve = 7,
    /// Moves to the next multiple of the number of bits, counted from address 0.
    Align = 8,
    /// Moves to the number, in bits from the bank's start.
    Addr = 9,
    /// An assertion, of which only the state counts.
    Assert = 10,
}

/// What an assembler knows of a node at the end of a pass.
///
/// ```
/// use denkumari::State;
/// assert_eq!(State::try_from(1), Ok(State::Stable));
/// ```
#[derive(Clone, Copy, Debug, Default, PartialEq, Eq, PartialOrd, Ord, Hash)]
#[repr(u8)]
pub enum State {
    /// Its value no longer depends on a guess.
    #[default]
    Resolved = 0,
    /// A guess, the same as in the pass before.
    Stable = 1,
    /// A guess that changed, or nothing.
    Unresolved = 2,
}

/// A number that is no kind's or no state's.
#[derive(Clone, Copy, Debug, PartialEq, Eq)]
pub struct NoSuch {
    what: &'static str,
    number: u8,
}

impl fmt::Display for NoSuch {
    fn fmt(&self, f: &mut fmt::Formatter<'_>) -> fmt::Result {
        write!(f, "there is no {} {}", self.what, self.number)
    }
}

impl std::error::Error for NoSuch {}

impl Kind {
    /// Every kind, by its number.
    pub const ALL: [Kind; 11] = [
        Kind::Nothing,
        Kind::Switch,
        Kind::Label,
        Kind::Constant,
        Kind::Instruction,
        Kind::Data,
        Kind::OpenData,
        Kind::Reserve,
        Kind::Align,
        Kind::Addr,
        Kind::Assert,
    ];

    /// Whether bits of the values are written for it: kinds 4, 5 and 6.
    pub fn is_written(self) -> bool {
        matches!(self, Kind::Instruction | Kind::Data | Kind::OpenData)
    }

    /// Whether a row's number is read: kinds 4 to 9.
    pub fn reads_number(self) -> bool {
        matches!(self as u8, 4..=9)
    }

    /// Whether a row's state is read: kinds 3 to 10.
    pub fn reads_state(self) -> bool {
        self as u8 >= 3
    }

    /// A kind that moves the walk as this one does and refuses less: reserves for written items, constants for labels.
    pub(crate) fn walked(self) -> Kind {
        match self {
            Kind::Label => Kind::Constant,
            kind if kind.is_written() => Kind::Reserve,
            kind => kind,
        }
    }

    /// Its word in `tools/form`.
    pub fn word(self) -> &'static str {
        match self {
            Kind::Nothing => "nothing",
            Kind::Switch => "switch",
            Kind::Label => "label",
            Kind::Constant => "constant",
            Kind::Instruction => "instruction",
            Kind::Data => "data",
            Kind::OpenData => "open",
            Kind::Reserve => "reserve",
            Kind::Align => "align",
            Kind::Addr => "addr",
            Kind::Assert => "assert",
        }
    }
}

impl fmt::Display for Kind {
    fn fmt(&self, f: &mut fmt::Formatter<'_>) -> fmt::Result {
        f.write_str(self.word())
    }
}

impl TryFrom<u8> for Kind {
    type Error = NoSuch;
    fn try_from(number: u8) -> Result<Kind, NoSuch> {
        Kind::ALL.get(usize::from(number)).copied().ok_or(NoSuch { what: "kind", number })
    }
}

impl TryFrom<u8> for State {
    type Error = NoSuch;
    fn try_from(number: u8) -> Result<State, NoSuch> {
        match number {
            0 => Ok(State::Resolved),
            1 => Ok(State::Stable),
            2 => Ok(State::Unresolved),
            _ => Err(NoSuch { what: "state", number }),
        }
    }
}

impl From<Kind> for u8 {
    fn from(kind: Kind) -> u8 {
        kind as u8
    }
}

impl From<State> for u8 {
    fn from(state: State) -> u8 {
        state as u8
    }
}
