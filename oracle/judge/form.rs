//! Form 1, read for the judge. Only whether a file is sound matters here: the place of a fault is document 01's own.

pub struct Bank {
    pub unit: usize,
    pub start: i64,
    pub size: Option<usize>,
    pub offset: Option<usize>,
    pub label_align: Option<usize>,
    pub fill: bool,
}

pub struct File {
    pub banks: Vec<Bank>,
    /// Kind and operand.
    pub nodes: Vec<(u8, u32)>,
    /// For each row, number and state of each node.
    pub rows: Vec<Vec<(u32, u8)>>,
    pub values: Vec<u8>,
    pub limit: usize,
}

const MAX_FILE: usize = 65_000;
const MAX_START: i64 = 1 << 40;

fn number(bytes: &[u8]) -> u64 {
    bytes.iter().fold(0, |sum, byte| (sum << 8) | *byte as u64)
}

fn bank(payload: &[u8]) -> Option<Bank> {
    let flags = payload[22];
    let optional = |flag: u8, at: usize| (flags & flag != 0).then(|| number(&payload[at..at + 4]) as usize);

    (flags <= 15).then(|| Bank {
        unit: number(&payload[0..2]) as usize,
        start: number(&payload[2..10]) as i64,
        size: optional(1, 10),
        offset: optional(2, 14),
        label_align: optional(4, 18),
        fill: flags & 8 != 0,
    })
}

/// A sound file, or nothing.
pub fn read(bytes: &[u8]) -> Option<File> {
    if bytes.len() > MAX_FILE {
        return None;
    }

    let mut file = File { banks: vec![], nodes: vec![], rows: vec![], values: vec![], limit: 0 };
    let mut rest = bytes;
    let mut last_tag = 0;

    while last_tag != 5 {
        let length = number(rest.get(1..3)?) as usize;
        let tag = rest[0];
        let payload = rest.get(3..3 + length)?;
        rest = &rest[3 + length..];

        let wanted = match tag {
            1 => 23,
            2 => 5,
            3 => 5 * file.nodes.len(),
            4 => length,
            5 => 1,
            _ => return None,
        };
        let in_order = tag > last_tag || (tag == last_tag && tag <= 3);
        if length != wanted || !in_order || (tag == 5 && last_tag != 4) {
            return None;
        }
        last_tag = tag;

        match tag {
            1 => file.banks.push(bank(payload)?),
            2 => file.nodes.push((payload[0], number(&payload[1..5]) as u32)),
            3 => file.rows.push(payload.chunks(5).map(|entry| (number(&entry[0..4]) as u32, entry[4])).collect()),
            4 => file.values = payload.to_vec(),
            _ => file.limit = payload[0] as usize,
        }
    }

    rest.is_empty().then_some(file)
}

impl Bank {
    pub fn is_within_limits(&self) -> bool {
        self.start.unsigned_abs() <= MAX_START as u64
    }

    pub fn is_empty_fill(&self) -> bool {
        self.fill && self.size == Some(0)
    }
}

impl File {
    pub fn is_within_counts(&self) -> bool {
        self.nodes.len() <= 4_096 && self.rows.len() <= 16
    }

    pub fn has_sound_lists(&self) -> bool {
        !self.rows.is_empty() && (0..self.nodes.len()).all(|node| self.is_sound_node(node))
    }

    pub fn is_sound_node(&self, node: usize) -> bool {
        let (kind, operand) = self.nodes[node];
        let end = self.values.len() * 8;
        let fits = |row: &Vec<(u32, u8)>| operand as usize + row[node].0 as usize <= end;
        let has_states = self.rows.iter().all(|row| row[node].1 <= 2);

        match kind {
            0 | 2 => true,
            1 => (operand as usize) < self.banks.len(),
            5 => has_states && fits(&self.rows[0]),
            4 | 6 => has_states && self.rows.iter().all(fits),
            3 | 7..=10 => has_states,
            _ => false,
        }
    }
}
