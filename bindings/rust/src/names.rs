//! The names file: what a node is called and where it stands in the source, beside a layout file, which has numbers alone.

use std::collections::BTreeMap;
use std::fmt;

/// What a node is called, and where it stands in the source.
#[derive(Clone, Debug, Default, PartialEq, Eq)]
pub struct Name {
    /// A label, a mnemonic, whatever a reader knows it by; it may be empty.
    pub name: String,
    /// A place in the source, `main.asm:12` say; it may be empty.
    pub place: String,
}

/// Names of nodes. Written with `to_string`, a line `NODE<TAB>NAME<TAB>PLACE` for each node that has one, ascending (docs/FORMAT.md).
///
/// ```
/// use denkumari::Names;
/// let mut names = Names::new();
/// names.name(3, "table", "main.asm:12")?;
/// assert_eq!(names.to_string(), "3\ttable\tmain.asm:12\n");
/// assert_eq!(Names::read(&names.to_string())?, names);
/// assert_eq!(Names::read("3\ttable\n").unwrap_err().to_string(), "line 1 of the names is not a number, a name and a place with tabs between");
/// # Ok::<(), denkumari::BadNames>(())
/// ```
#[derive(Clone, Debug, Default, PartialEq, Eq)]
pub struct Names {
    names: BTreeMap<usize, Name>,
}

/// Why names are none.
#[derive(Clone, Copy, Debug, PartialEq, Eq)]
#[non_exhaustive]
#[allow(missing_docs)]
pub enum BadNames {
    /// A name or a place has a tab, a line end or another control character in it.
    Character { node: usize },
    /// A line is not a number, a name and a place with tabs between. Lines count from 1.
    Line { line: usize },
    /// A line's node is not above that of the line before.
    Order { line: usize },
}

impl Names {
    /// No names.
    pub fn new() -> Names {
        Names::default()
    }

    /// Names a node, in the place of the name that it had.
    pub fn name(&mut self, node: usize, name: &str, place: &str) -> Result<(), BadNames> {
        if name.chars().chain(place.chars()).any(char::is_control) {
            return Err(BadNames::Character { node });
        }
        self.names.insert(node, Name { name: name.to_string(), place: place.to_string() });
        Ok(())
    }

    /// What a node is called.
    pub fn get(&self, node: usize) -> Option<&Name> {
        self.names.get(&node)
    }

    /// The names file of this layout file: its first line has the sum and the length that `cksum` prints of it, so that a stale one is told (docs/FORMAT.md).
    ///
    /// ```
    /// let mut names = denkumari::Names::new();
    /// names.name(3, "table", "main.asm:12")?;
    /// assert_eq!(names.of_form(b"123456789"), "form\t930766865\t9\n3\ttable\tmain.asm:12\n");
    /// assert_eq!(denkumari::Names::read(&names.of_form(b"123456789"))?, names);
    /// # Ok::<(), denkumari::BadNames>(())
    /// ```
    pub fn of_form(&self, form: &[u8]) -> String {
        format!("form\t{}\t{}\n{self}", cksum(form), form.len())
    }

    /// Reads a names file. A first line with the sum of its layout file is passed over.
    pub fn read(text: &str) -> Result<Names, BadNames> {
        let mut names = Names::new();
        let mut above = None;
        for (line, words) in (1..).zip(text.lines()) {
            let parts: Vec<&str> = words.split('\t').collect();
            if line == 1 && is_sum(&parts) {
                continue;
            }
            let (node, name, place) = match parts[..] {
                [node, name, place] if node.bytes().all(|digit| digit.is_ascii_digit()) => (node, name, place),
                _ => return Err(BadNames::Line { line }),
            };
            let node: usize = node.parse().map_err(|_| BadNames::Line { line })?;
            if above.is_some_and(|above| node <= above) {
                return Err(BadNames::Order { line });
            }
            above = Some(node);
            names.name(node, name, place).map_err(|_| BadNames::Line { line })?;
        }
        Ok(names)
    }
}

/// Whether a line says of which layout file the names are.
fn is_sum(parts: &[&str]) -> bool {
    let is_number = |text: &str| !text.is_empty() && text.bytes().all(|digit| digit.is_ascii_digit());
    matches!(parts, ["form", sum, length] if is_number(sum) && is_number(length))
}

/// The sum of POSIX `cksum`: the bytes, then those of their number from the lowest on.
fn cksum(bytes: &[u8]) -> u32 {
    let next =
        |sum: u32, byte: u8| (0..8).fold(sum ^ u32::from(byte) << 24, |sum, _| sum << 1 ^ if sum >> 31 == 1 { 0x04c1_1db7 } else { 0 });
    let length = bytes.len().to_le_bytes();
    let used = length.iter().rposition(|&byte| byte != 0).map_or(0, |last| last + 1);
    !bytes.iter().chain(&length[..used]).fold(0, |sum, &byte| next(sum, byte))
}

impl fmt::Display for Names {
    fn fmt(&self, f: &mut fmt::Formatter<'_>) -> fmt::Result {
        self.names.iter().try_for_each(|(node, Name { name, place })| writeln!(f, "{node}\t{name}\t{place}"))
    }
}

impl fmt::Display for BadNames {
    fn fmt(&self, f: &mut fmt::Formatter<'_>) -> fmt::Result {
        match self {
            BadNames::Character { node } => {
                write!(f, "the name or place of node {node} has a tab, a line end or a control character in it")
            }
            BadNames::Line { line } => write!(f, "line {line} of the names is not a number, a name and a place with tabs between"),
            BadNames::Order { line } => write!(f, "the node in line {line} of the names is not above that of the line before"),
        }
    }
}

impl std::error::Error for BadNames {}
