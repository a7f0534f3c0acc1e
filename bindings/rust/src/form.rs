//! A program as a file of form 1 or 2, byte by byte as docs/FORMAT.md says.

use crate::{Bank, Misuse, Program};

/// The two forms of a layout file.
#[derive(Clone, Copy, Debug, PartialEq, Eq)]
pub enum Form {
    /// Document 01's: no fill bits, bank 0 open where it is the only one, at most 65,000 bytes.
    One = 1,
    /// Document 02's: fill bits, bank 0 closed, at most 65,536 bytes.
    Two = 2,
}

impl Program {
    /// The same layout as a file, for `tools/layout`, a bug report or a replay. [`layout_form`](crate::layout_form) answers for the file what
    /// [`Program::build`] answers, with the same fill and page size, which no form carries. Where a form cannot say what is chosen here it is turned away.
    ///
    /// ```
    /// use denkumari::{Bank, Form, Kind, Misuse, Program, State::Resolved};
    /// let mut program = Program::new(1);
    /// program.bank(Bank::new(8)).bank(Bank { offset: Some(0), ones: true, ..Bank::new(8) });
    /// program.node(Kind::Switch, 1).row(&[(0, Resolved)]);
    /// assert_eq!(program.to_form(Form::Two)?[..8], [16, 0, 1, 2, 17, 0, 24, 0]);
    /// assert_eq!(program.to_form(Form::One), Err(Misuse::FillBit { bank: 1 }));
    /// # Ok::<(), Misuse>(())
    /// ```
    pub fn to_form(&self, form: Form) -> Result<Vec<u8>, Misuse> {
        let nodes = self.kinds.len();
        if let Some((row, cells)) = self.rows.iter().enumerate().find(|(_, cells)| cells.len() != nodes) {
            return Err(Misuse::RowLength { row, cells: cells.len(), nodes });
        }
        let alone = self.banks.len() == 1;
        let mut file = Vec::new();
        let (bank_tag, most) = match form {
            Form::One if alone && self.choices.closed => return Err(Misuse::Closed),
            Form::Two if alone && !self.choices.closed => return Err(Misuse::Open),
            Form::One => (1, 65_000),
            Form::Two => (17, 65_536),
        };
        if form == Form::Two {
            field(&mut file, 16, &[2])?;
        }
        for (i, bank) in self.banks.iter().enumerate() {
            let mut payload = record(bank);
            match form {
                Form::Two => payload.push(bank.ones as u8),
                Form::One if bank.ones => return Err(Misuse::FillBit { bank: i }),
                Form::One => {}
            }
            field(&mut file, bank_tag, &payload)?;
        }
        for (kind, operand) in self.kinds.iter().zip(&self.operands) {
            field(&mut file, 2, &[&[*kind as u8][..], &operand.to_be_bytes()].concat())?;
        }
        for row in &self.rows {
            let cells = row.iter().flat_map(|(number, state)| number.to_be_bytes().into_iter().chain([*state as u8]));
            field(&mut file, 3, &cells.collect::<Vec<u8>>())?;
        }
        field(&mut file, 4, self.values.bytes())?;
        field(&mut file, 5, &[self.limit])?;
        if file.len() > most {
            return Err(Misuse::FileTooLong { bytes: file.len(), most });
        }
        Ok(file)
    }
}

/// Unit 2 bytes, start 8, size 4, offset 4, label alignment 4, flags 1; a number that there is not is 0.
fn record(bank: &Bank) -> Vec<u8> {
    let number = |number: Option<u32>| number.unwrap_or(0).to_be_bytes();
    let (unit, start) = (bank.unit.to_be_bytes(), bank.start.to_be_bytes());
    [&unit[..], &start, &number(bank.size), &number(bank.offset), &number(bank.align), &[bank.flags()]].concat()
}

/// Tag 1 byte, length 2, payload.
fn field(file: &mut Vec<u8>, tag: u8, payload: &[u8]) -> Result<(), Misuse> {
    let length = u16::try_from(payload.len()).map_err(|_| Misuse::FileTooLong { bytes: payload.len(), most: 65_535 })?;
    file.push(tag);
    file.extend(length.to_be_bytes());
    file.extend(payload);
    Ok(())
}
