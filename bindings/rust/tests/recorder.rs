//! The recorder against tables made by hand, its file read back against what it builds, and bad use, each with what is said of it.
use denkumari::State::{Resolved, Stable, Unresolved};
use denkumari::*;

const WORKED: &[u8] = include_bytes!("../../../examples/worked.form");

/// Document 01's worked example, by hand.
fn by_hand() -> Program {
    let mut program = Program::new(10);
    program.bank(Bank::new(8)).bank(Bank { start: 64, size: Some(40), offset: Some(0), fill: true, ..Bank::new(10) });
    program.node(Kind::Switch, 1).node(Kind::Label, 0).node(Kind::Data, 0).node(Kind::Reserve, 0).node(Kind::Instruction, 16);
    program.row(&[(0, Resolved), (0, Resolved), (10, Resolved), (10, Resolved), (10, Resolved)]).values(&[0xff, 0xc0, 0x2a, 0x80]);
    program
}

/// The same, recorded, and its nodes.
fn recorded() -> (Recorder, Vec<Node>) {
    let mut recorder = Recorder::new(10);
    recorder.bank(Bank::new(8)).unwrap();
    let bank = recorder.bank(Bank { start: 64, size: Some(40), offset: Some(0), fill: true, ..Bank::new(10) }).unwrap();
    let kinds = [(Kind::Switch, bank), (Kind::Label, 0), (Kind::Data, 0), (Kind::Reserve, 0), (Kind::Instruction, 0)];
    let nodes: Vec<Node> = kinds.iter().map(|(kind, operand)| recorder.node(*kind, *operand).unwrap()).collect();
    recorder.begin_pass().unwrap();
    for node in &nodes[2..] {
        recorder.tell(*node, 10, Resolved).unwrap();
    }
    recorder.value(nodes[2], &[0xff, 0xc0], 10).unwrap();
    recorder.value_number(nodes[4], 0x0aa, 10).unwrap();
    (recorder, nodes)
}

/// Bits appended one value after the other, against a list of bits.
#[test]
fn values_are_bits_one_behind_the_other() {
    let mut draw = Draw(3);
    for _ in 0..200 {
        let (mut values, mut bits) = (Values::new(), Vec::new());
        for _ in 0..draw.below(12) {
            let (from, count) =
                ([draw.below(256) as u8, draw.below(256) as u8, draw.below(256) as u8, draw.below(256) as u8], draw.below(33));
            let there = bits.len() as u32;
            if draw.below(4) == 0 {
                assert_eq!(values.append_zeros(count), Some(there));
                bits.extend(vec![false; count as usize]);
            } else if draw.below(2) == 0 {
                assert_eq!(values.append(&from, count), Some(there));
                bits.extend((0..count as usize).map(|i| from[i / 8] >> (7 - i % 8) & 1 != 0));
            } else {
                let number = u64::from(u32::from_be_bytes(from));
                assert_eq!(values.append_number(number, count), Some(there));
                bits.extend((0..count).rev().map(|i| number >> i & 1 != 0));
            }
        }
        assert_eq!((values.len(), values.bytes().len()), (bits.len() as u64, bits.len().div_ceil(8)));
        bits.resize(bits.len().next_multiple_of(8), false);
        let bytes: Vec<u8> = bits.chunks(8).map(|bits| bits.iter().fold(0, |byte, bit| byte << 1 | *bit as u8)).collect();
        assert_eq!(values.bytes(), bytes);
    }
}

/// What the library answers for a file.
fn laid_out(file: &[u8], choices: Choices) -> Result<(Layout, Vec<u8>, Vec<Span>), Refusal> {
    let (mut image, mut addresses, mut offsets, mut sizes) = (vec![0; 1 << 16], vec![0; 4096], vec![0; 4096], vec![0; 4096]);
    let spans = Spans { addresses: &mut addresses, offsets: &mut offsets, sizes: &mut sizes };
    let layout = layout_form(file, choices.fill, choices.page, &mut image, spans)?;
    image.truncate(layout.length.div_ceil(8) as usize);
    let offset = |word| if word == NO_OFFSET { None } else { Some(word) };
    let spans = (0..layout.spans).map(|i| Span { address: addresses[i], offset: offset(offsets[i]), size: sizes[i] }).collect();
    Ok((layout, image, spans))
}

fn parts(built: Built) -> (Layout, Vec<u8>, Vec<Span>) {
    (built.layout, built.image, built.spans)
}

#[test]
fn a_program_writes_the_worked_example() {
    assert_eq!(by_hand().to_form(Form::One).unwrap(), WORKED);
    let mut second = vec![0; 65_536];
    let long = to_form2(WORKED, &mut second).unwrap();
    assert_eq!(by_hand().to_form(Form::Two).unwrap(), second[..long]);
}

/// The dumps and the words of docs/FORMAT.md, line by line: the bytes stand between the place and a bar.
#[test]
fn the_dumps_in_the_documents_are_the_real_bytes() {
    let text = include_str!("../../../docs/FORMAT.md");
    let dumps = text.lines().filter_map(|line| line.strip_prefix("    ")?.trim_start().split_once(" | ")?.0.split_once("  "));
    let (mut files, mut file) = (Vec::new(), Vec::new());
    for (place, bytes) in dumps.filter(|(place, _)| place.parse::<usize>().is_ok()) {
        if place == "0" {
            files.push(std::mem::take(&mut file));
        }
        assert_eq!(place.parse(), Ok(file.len()));
        file.extend(bytes.split_whitespace().map(|byte| u8::from_str_radix(byte, 16).unwrap()));
    }
    files.push(file);
    assert_eq!(files, [vec![], by_hand().to_form(Form::One).unwrap(), by_hand().to_form(Form::Two).unwrap()]);
}

/// The names file of docs/FORMAT.md, and its source's layout.
#[test]
fn the_source_in_the_documents() {
    let text = include_str!("../../../docs/FORMAT.md");
    let lines = text.lines().filter_map(|line| line.strip_prefix("    ")).filter(|line| line.contains('\t'));
    let names = Names::read(&lines.flat_map(|line| [line, "\n"]).collect::<String>()).unwrap();
    assert_eq!(names.get(2).map(|name| name.name.as_str()), Some("jmp far"));

    let mut recorder = Recorder::new(10);
    recorder.bank(Bank::new(8)).unwrap();
    recorder.bank(Bank { size: Some(512), offset: Some(0), ..Bank::new(8) }).unwrap();
    let kinds = [
        (Kind::Switch, 1),
        (Kind::Label, 0),
        (Kind::Instruction, 0),
        (Kind::Label, 1),
        (Kind::Data, 0),
        (Kind::OpenData, 0),
        (Kind::Reserve, 0),
        (Kind::Align, 0),
        (Kind::Addr, 0),
        (Kind::Assert, 0),
        (Kind::Constant, 0),
    ];
    let nodes: Vec<Node> = kinds.map(|(kind, operand)| recorder.node(kind, operand).unwrap()).to_vec();
    for (bits, jump, constant) in [(24, Unresolved, Stable), (16, Unresolved, Resolved), (16, Stable, Resolved)] {
        recorder.begin_pass().unwrap();
        for (node, number, state) in
            [(2, bits, jump), (4, 16, Resolved), (5, 24, Resolved), (6, 32, Resolved), (7, 64, Resolved), (8, 256, Resolved)]
        {
            recorder.tell(nodes[node], number, state).unwrap();
        }
        recorder.tell(nodes[9], 0, Resolved).unwrap();
        recorder.tell(nodes[10], 0, constant).unwrap();
    }
    recorder.value(nodes[2], &[0xeb, 0x02], 16).unwrap();
    recorder.value(nodes[4], &[0xbe, 0xef], 16).unwrap();
    recorder.value(nodes[5], b"abc", 24).unwrap();
    let built = recorder.build(64).unwrap();
    assert_eq!((built.layout.k, built.digits().unwrap().as_str(), built.blocks.len()), (3, "eb02beef616263", 1));
    // and the values as the document has them
    let values = [0xeb, 2, 0, 0xbe, 0xef, 0x61, 0x62, 0x63];
    assert!(recorder.to_form(Form::Two).unwrap().windows(8).any(|bytes| bytes == values));
    for line in ["instruction 24: eb0200: 24? 16? 16~", "data 16: beef", "open 8: 61 62 63"] {
        assert!(text.contains(line), "{line}");
    }
}

#[test]
fn the_recorder_against_tables_by_hand() {
    let (recorder, _) = recorded();
    assert_eq!(recorder.build(64).unwrap(), by_hand().build(64).unwrap());
    // values are packed: ten bits of each, the second from bit 10 on
    let mut packed = by_hand();
    packed.values(&[0xff, 0xca, 0xa0]);
    let mut file = packed.to_form(Form::Two).unwrap();
    let operand = 4 + 2 * 27 + 4 * 8 + 3 + 4;
    assert_eq!(file[operand], 16);
    file[operand] = 10;
    assert_eq!(recorder.to_form(Form::Two).unwrap(), file);
}

#[test]
fn passes_are_rows() {
    let mut recorder = Recorder::new(10);
    recorder.bank(Bank { offset: Some(0), ..Bank::new(8) }).unwrap();
    let jump = recorder.node(Kind::Instruction, 7).unwrap();
    recorder.node(Kind::Label, 0).unwrap();
    let table = recorder.node(Kind::OpenData, 7).unwrap();
    for (bits, state) in [(24, Unresolved), (16, Unresolved), (16, Stable), (16, Stable), (16, Stable)] {
        recorder.begin_pass().unwrap();
        recorder.tell(jump, bits, state).unwrap();
        recorder.tell(table, 8, Resolved).unwrap();
    }
    recorder.value(jump, &[1, 2, 3], 24).unwrap();
    recorder.value(jump, &[0xeb, 0x05], 16).unwrap();
    recorder.value(table, &[0x5a], 8).unwrap();
    let mut program = Program::new(10);
    program.bank(Bank { offset: Some(0), ..Bank::new(8) }).node(Kind::Instruction, 0).node(Kind::Label, 0).node(Kind::OpenData, 24);
    // the jump's value has room for the 24 bits of pass 1, and rows 4 and 5 are as row 3
    program.values(&[0xeb, 0x05, 0, 0x5a]);
    for (bits, state) in [(24, Unresolved), (16, Unresolved), (16, Stable)] {
        program.row(&[(bits, state), (0, Resolved), (8, Resolved)]);
    }
    assert_eq!(recorder.to_form(Form::One), program.to_form(Form::One));
    let built = recorder.build(64).unwrap();
    assert_eq!((built.layout.k, built.digits().unwrap().as_str()), (3, "eb055a"));
}

/// Numbers from a seed, none of them worth much.
struct Draw(u64);

impl Draw {
    fn below(&mut self, most: u32) -> u32 {
        self.0 = self.0.wrapping_mul(6_364_136_223_846_793_005).wrapping_add(1_442_695_040_888_963_407);
        ((self.0 >> 33) % u64::from(most)) as u32
    }
}

fn drawn(draw: &mut Draw) -> Recorder {
    let mut recorder = Recorder::new(draw.below(6) as u8);
    let banks = 1 + draw.below(3);
    for i in 0..banks {
        let some = |draw: &mut Draw, number: u32| (draw.below(4) != 0).then_some(number);
        let unit = [1, 8, 10, 16][draw.below(4) as usize];
        let size = if i + 1 == banks { some(draw, 400) } else { Some(400) };
        let (offset, align) = (some(draw, i * 400), some(draw, 8).filter(|_| draw.below(2) == 0));
        let (fill, ones) = (size.is_some() && draw.below(2) == 0, i > 0 && draw.below(4) == 0);
        recorder.bank(Bank { start: i64::from(draw.below(64)) - 8, size, offset, align, fill, ones, unit }).unwrap();
    }
    recorder.choices(Choices { closed: draw.below(2) == 0, fill: [Fill::Inherited, Fill::Full][draw.below(2) as usize], page: None });
    let mut nodes = Vec::new();
    if banks > 1 {
        recorder.node(Kind::Switch, 1).unwrap();
    }
    for _ in 0..draw.below(8) {
        let kind = Kind::ALL[draw.below(11) as usize];
        let operand = if kind == Kind::Switch { draw.below(banks) } else { draw.below(2) };
        nodes.push((kind, recorder.node(kind, operand).unwrap(), draw.below(5) * 4));
    }
    for pass in 0..1 + draw.below(4) {
        recorder.begin_pass().unwrap();
        for (kind, node, number) in &mut nodes {
            if *kind != Kind::Data && draw.below(3) == 0 {
                *number = if *kind == Kind::Addr { draw.below(200) } else { draw.below(5) * 4 };
            }
            let state = [Resolved, Resolved, Stable, if pass == 0 { Unresolved } else { Resolved }][draw.below(4) as usize];
            recorder.tell(*node, *number, state).unwrap();
        }
    }
    for (_, node, number) in nodes.into_iter().filter(|(kind, ..)| kind.is_written()) {
        recorder.value_number(node, u64::from(draw.below(1 << 16)), number).unwrap();
    }
    recorder
}

/// A source as an assembler has it: banks, and of each node kind and operand.
struct Source {
    banks: Vec<Bank>,
    nodes: Vec<(Kind, u32)>,
}

impl Source {
    fn drawn(draw: &mut Draw) -> Source {
        let some = |draw: &mut Draw, number: u32| (draw.below(3) != 0).then_some(number);
        let bank = |draw: &mut Draw, i: u32| Bank {
            start: i64::from(draw.below(64)) - 32,
            size: Some(96),
            offset: some(draw, i * 96),
            align: [None, Some(0), Some(8), Some(24), Some(30)][draw.below(5) as usize],
            ..Bank::new([1, 8, 10, 16][draw.below(4) as usize])
        };
        let banks: Vec<Bank> = (0..1 + draw.below(4)).map(|i| bank(draw, i)).collect();
        let node = |draw: &mut Draw| match Kind::ALL[draw.below(11) as usize] {
            Kind::Switch => (Kind::Switch, draw.below(banks.len() as u32)),
            kind if matches!(kind, Kind::Label | Kind::Constant) => (kind, draw.below(2)),
            kind => (kind, 0),
        };
        let nodes = (0..draw.below(12)).map(|_| node(draw)).collect();
        Source { banks, nodes }
    }

    /// Document 01's walk of one row, by hand: where each node stands, up to the node at which a position would pass 4,294,967,295.
    fn walked(&self, row: &[u32]) -> Result<Vec<Place>, usize> {
        let (mut bank, mut at, mut places) = (0, vec![0_u64; self.banks.len()], Vec::new());
        for (node, ((kind, operand), number)) in self.nodes.iter().zip(row).enumerate() {
            if *kind == Kind::Switch {
                bank = *operand as usize;
            }
            let (b, unit) = (self.banks[bank], u64::from(self.banks[bank].unit));
            let distance = |position: u64, align: u32| match align {
                0 => 0,
                a => (-(i128::from(b.start) * i128::from(unit) + i128::from(position))).rem_euclid(i128::from(a)) as u64,
            };
            if matches!(kind, Kind::Label | Kind::Constant) && *operand == 0 {
                at[bank] += distance(at[bank], b.align.unwrap_or(0));
            }
            let seen = at[bank];
            let takes = (4..=7).contains(&(*kind as u8));
            match kind {
                Kind::Align => at[bank] += distance(seen, *number),
                Kind::Addr => at[bank] = u64::from(*number),
                _ if takes => at[bank] += u64::from(*number),
                _ => {}
            }
            if at[bank] > u64::from(u32::MAX) {
                return Err(node);
            }
            places.push(Place {
                bank: bank as u32,
                position: seen as u32,
                address: b.start + (seen / unit) as i64,
                past: (seen % unit) as u32,
                output: b.offset.map(|offset| u64::from(offset) + seen),
                size: if takes { *number } else { 0 },
            });
        }
        Ok(places)
    }

    /// The row as a layout of its own, in which it is the last pass.
    fn program(&self, row: &[u32]) -> Program {
        let mut program = Program::new(0);
        self.banks.iter().for_each(|bank| _ = program.bank(*bank));
        self.nodes.iter().for_each(|(kind, operand)| _ = program.node(*kind, *operand));
        program.row(&row.iter().map(|number| (*number, Resolved)).collect::<Vec<_>>()).values(&[0xa5; 8]);
        program
    }
}

/// What is said of a pass: its places, or the node at which a position would go too far.
fn said_of(recorder: &Recorder, pass: u64) -> Result<Vec<Place>, usize> {
    recorder.places().map_err(|why| match why.refusal() {
        Some(Refusal::PositionPast { node, passes }) if passes == pass => node as usize,
        _ => panic!("{why}"),
    })
}

/// Where everything stands, asked within passes and at their ends: beside a walk by hand, beside the library's own map of the row, as far as that goes, and
/// beside the spans of its build.
#[test]
fn places_in_every_pass() {
    let mut draw = Draw(5);
    let (mut within, mut stopped, mut built, mut too_far) = (0, 0, 0, 0);
    for _ in 0..3_000 {
        let source = Source::drawn(&mut draw);
        let mut recorder = Recorder::new(draw.below(4) as u8);
        source.banks.iter().for_each(|bank| _ = recorder.bank(*bank).unwrap());
        let nodes: Vec<Node> = source.nodes.iter().map(|(kind, operand)| recorder.node(*kind, *operand).unwrap()).collect();
        let mut row = vec![0; nodes.len()];
        for pass in 1..2 + u64::from(draw.below(3)) {
            for (number, (kind, _)) in row.iter_mut().zip(&source.nodes).filter(|(_, (kind, _))| pass == 1 || *kind != Kind::Data) {
                *number = if draw.below(40) == 0 && !kind.is_written() { u32::MAX } else { draw.below(6) * 4 };
            }
            recorder.begin_pass().unwrap();
            let walked = source.walked(&row);
            for (node, (kind, _)) in nodes.iter().zip(&source.nodes).filter(|(_, (kind, _))| kind.reads_state()) {
                if draw.below(4) == 0 {
                    within += 1;
                    let ahead = &row[..node.number()];
                    let seen = source.walked(&[ahead, &[0]].concat()).map_err(|past| past.min(node.number()));
                    assert_eq!(said_of(&recorder, pass), seen, "{kind}");
                }
                recorder.tell(*node, row[node.number()], [Resolved, Stable, Unresolved][draw.below(3) as usize]).unwrap();
            }
            assert_eq!(said_of(&recorder, pass), walked);
            let Ok(places) = walked else {
                too_far += 1;
                continue;
            };
            let map = source.program(&row).map().unwrap();
            stopped += map.stopped.is_some() as u32;
            for (standing, place) in map.nodes.iter().zip(&places) {
                let Standing { bank, position, output, size } = *standing;
                assert_eq!((bank as u32, position, output, size), (place.bank, place.position, place.output, place.size));
            }
            assert!(map.stopped.is_some() || map.nodes.len() == places.len());
            if let Ok(image) = source.program(&row).build(64) {
                built += 1;
                for (node, place) in places.iter().enumerate() {
                    let (kind, size) = (source.nodes[node].0, u64::from(place.size));
                    let has_span = kind == Kind::Label || kind.is_written();
                    assert_eq!(image.span(node), has_span.then_some(Span { address: place.address, offset: place.output, size }));
                }
                assert_eq!((image.span(places.len()), image.nodes.len()), (None, image.spans.len()));
            }
        }
    }
    assert!(within > 5_000 && stopped > 1_000 && built > 500 && too_far > 100, "{within} {stopped} {built} {too_far}");
}

#[test]
fn places_that_there_are_not() {
    let mut recorder = Recorder::new(1);
    assert_eq!(recorder.places(), Err(NotBuilt::Misuse(Misuse::NoPass)));
    recorder.begin_pass().unwrap();
    assert_eq!(recorder.places().unwrap_err().refusal(), Some(Refusal::BankCount));
    let mut recorder = Recorder::new(1);
    let sized = Bank { size: Some(9), offset: Some(0), ..Bank::new(8) };
    recorder.bank(Bank::new(8)).unwrap();
    recorder.bank(sized).unwrap();
    recorder.bank(Bank { offset: Some(8), ..sized }).unwrap();
    recorder.begin_pass().unwrap();
    assert_eq!(recorder.places().unwrap_err().refusal(), Some(Refusal::BanksOverlap { first: 1, second: 2 }));
    // a node that would go too far, by its name; before it is told it stands at the last position
    let mut recorder = Recorder::new(1);
    recorder.bank(Bank::new(8)).unwrap();
    let (far, more) = (recorder.node(Kind::Addr, 0).unwrap(), recorder.node(Kind::Reserve, 0).unwrap());
    recorder.name(more, "stack", "brake.asm:9").unwrap();
    recorder.begin_pass().unwrap();
    recorder.tell(far, u32::MAX, Resolved).unwrap();
    assert_eq!(recorder.places().unwrap().last().map(|place| (place.address, place.past)), Some((536_870_911, 7)));
    recorder.tell(more, 1, Resolved).unwrap();
    let words = "refused 5: at node 1 a position would pass 4,294,967,295: node 1 (reserve) stack at brake.asm:9";
    assert_eq!(recorder.places().unwrap_err().to_string(), words);
}

#[test]
fn a_file_read_back_is_answered_as_the_recorder_is() {
    let mut draw = Draw(1);
    let (mut built, mut refused, mut ones, mut twos) = (0, 0, 0, 0);
    for _ in 0..4_000 {
        let recorder = drawn(&mut draw);
        let program = recorder.program().unwrap();
        let mine = program.build(1 << 16).map(parts);
        let choices = *program.chosen();
        match &mine {
            Ok(_) => built += 1,
            Err(refusal) => {
                refused += 1;
                // every refusal that has a node names it
                let fault = program.fault(*refusal);
                let nodeless = matches!(refusal.number(), 1 | 2 | 3 | 8 | 14);
                assert_eq!(fault.node.is_none(), nodeless, "{fault}");
            }
        }
        if let Ok(file) = recorder.to_form(Form::Two) {
            twos += 1;
            assert_eq!(laid_out(&file, choices), mine);
        }
        if let Ok(file) = recorder.to_form(Form::One) {
            ones += 1;
            assert_eq!(laid_out(&file, choices), mine);
        }
    }
    assert!(built > 500 && refused > 500 && ones > 500 && twos > 500, "{built} {refused} {ones} {twos}");
}

/// Tables of any sort, most of them malformed: nothing panics, a file of them is answered as they are, and a refusal of theirs is told in words.
#[test]
fn any_program_is_answered_as_its_file_is() {
    let mut draw = Draw(11);
    let mut told = std::collections::BTreeMap::new();
    for _ in 0..6_000 {
        let mut program = Program::new(draw.below(4) as u8);
        let many = draw.below(19);
        let most = [1, 1, 2, 2, 3, many][draw.below(6) as usize];
        for i in 0..most {
            let odd = draw.below(40) == 0;
            let one = |draw: &mut Draw, of: &[u32]| (draw.below(3) != 0).then(|| of[draw.below(of.len() as u32) as usize]);
            let bank = Bank {
                unit: if odd { 0 } else { [1, 8][draw.below(2) as usize] },
                start: if draw.below(40) == 0 { i64::MIN } else { i64::from(draw.below(9)) - 4 },
                size: one(&mut draw, &[64, 64, 64, 0, u32::MAX]),
                offset: one(&mut draw, &[i * 64]),
                align: one(&mut draw, &[0, 8, 24]),
                fill: draw.below(3) == 0,
                ones: draw.below(20) == 0,
            };
            program.bank(bank);
        }
        let nodes = [draw.below(7), 4_097][(draw.below(200) == 0) as usize] as usize;
        for _ in 0..nodes {
            let kind = Kind::ALL[draw.below(11) as usize];
            program.node(kind, draw.below(if kind == Kind::Switch { most + 1 } else { 9 }));
        }
        for _ in 0..[draw.below(3) + 1, 0, 17][draw.below(40).saturating_sub(37) as usize] {
            let number = |draw: &mut Draw| [draw.below(20), u32::MAX][(draw.below(60) == 0) as usize];
            let cells: Vec<_> = (0..nodes).map(|_| (number(&mut draw), State::try_from(draw.below(3) as u8).unwrap())).collect();
            program.row(&cells);
        }
        program.values(&[0x96; 8][..draw.below(5) as usize + 4]);
        let fill = [Fill::Inherited, Fill::Full][draw.below(2) as usize];
        let page = [None, None, Some(8), Some(24)][draw.below(4) as usize];
        program.choices(Choices { closed: draw.below(2) == 0, fill, page });
        let mine = program.build(1 << 16).map(parts);
        *told.entry(mine.as_ref().map_or_else(Refusal::number, |_| 0)).or_insert(0) += 1;
        if let Err(refusal) = &mine {
            assert!(program.fault(*refusal).to_string().starts_with(&refusal.to_string()));
        }
        for form in [Form::One, Form::Two] {
            match program.to_form(form) {
                Ok(file) => assert_eq!(laid_out(&file, *program.chosen()), mine),
                Err(misuse) => {
                    assert!(matches!(misuse, Misuse::FillBit { .. } | Misuse::Open | Misuse::Closed | Misuse::FileTooLong { .. }))
                }
            }
        }
    }
    let numbers: Vec<u64> = told.keys().copied().collect();
    assert_eq!(numbers, [0, 1, 2, 3, 4, 5, 7, 8, 9, 10, 11, 12, 14, 19], "{told:?}");
}

#[test]
fn a_refusal_names_its_nodes() {
    let mut recorder = Recorder::new(10);
    recorder.bank(Bank::new(8)).unwrap();
    recorder.bank(Bank { size: Some(64), offset: Some(0), ..Bank::new(8) }).unwrap();
    recorder.node(Kind::Switch, 1).unwrap();
    let table = recorder.node(Kind::Data, 0).unwrap();
    let back = recorder.node(Kind::Addr, 0).unwrap();
    let jump = recorder.node(Kind::Instruction, 0).unwrap();
    recorder.name(table, "clamp", "brake.asm:7").unwrap();
    recorder.name(jump, "jmp", "").unwrap();
    recorder.begin_pass().unwrap();
    recorder.tell(table, 16, Resolved).unwrap();
    recorder.tell(back, 8, Resolved).unwrap();
    recorder.tell(jump, 8, Stable).unwrap();
    recorder.value(table, &[1, 2], 16).unwrap();
    recorder.value(jump, &[3], 8).unwrap();
    let said = recorder.build(64).unwrap_err();
    assert_eq!(said.refusal(), Some(Refusal::Overlap { start: 0, size: 16, passes: 2 }));
    let words = "refused 12: a placement would share a bit with what stands from bit 0 on, 16 bits: \
                 node 3 (instruction) jmp over node 1 (data) clamp at brake.asm:7";
    assert_eq!(said.to_string(), words);
    assert_eq!(recorder.names().to_string(), "1\tclamp\tbrake.asm:7\n3\tjmp\t\n");
    recorder.name(back, "a\tb", "").unwrap_err();
    recorder.begin_pass().unwrap();
    recorder.tell(table, 16, Resolved).unwrap();
    recorder.tell(back, 60, Resolved).unwrap();
    recorder.tell(jump, 8, Resolved).unwrap();
    assert_eq!(recorder.build(64).unwrap_err().to_string(), "refused 10: node 3 ends past its bank's size: node 3 (instruction) jmp");
}

#[test]
fn bad_use_is_turned_away() {
    let says = |misuse: Misuse, words: &str| assert_eq!(misuse.to_string(), words);
    let (mut recorder, nodes) = recorded();
    says(recorder.tell(nodes[3], 1, Resolved).unwrap_err(), "pass 1 says something of node 3 twice");
    says(recorder.bank(Bank::new(8)).unwrap_err(), "banks and nodes are told before the first pass begins");
    says(recorder.node(Kind::Label, 0).unwrap_err(), "banks and nodes are told before the first pass begins");
    says(recorder.value(nodes[3], &[0], 8).unwrap_err(), "node 3 (reserve) takes no value");
    says(recorder.value(nodes[2], &[0], 9).unwrap_err(), "the value of node 2 is to have 9 bits, and 1 bytes are given");
    says(recorder.value_number(nodes[2], 0, 65).unwrap_err(), "the value of node 2 is to have 65 bits, and 8 bytes are given");
    recorder.begin_pass().unwrap();
    says(recorder.tell(nodes[2], 11, Resolved).unwrap_err(), "pass 2 gives node 2, data of declared size, 11 bits, and pass 1 gave it 10");
    recorder.tell(nodes[2], 10, Resolved).unwrap();
    recorder.tell(nodes[4], 12, Resolved).unwrap();
    says(recorder.begin_pass().unwrap_err(), "pass 2 says nothing of node 3 (reserve)");
    assert_eq!(recorder.build(64), Err(NotBuilt::Misuse(Misuse::NodeMissing { pass: 2, node: 3, kind: Kind::Reserve })));
    recorder.tell(nodes[3], 10, Resolved).unwrap();
    says(recorder.to_form(Form::One).unwrap_err(), "the last pass gives node 4 12 bits, and its value has 10");

    let mut other = Recorder::new(1);
    assert_eq!(other.build(0).unwrap_err().to_string(), "no pass has begun");
    says(other.name(nodes[0], "", "").unwrap_err(), "there is no node 0");
    says(other.node(Kind::Switch, 0).unwrap_err(), "there is no bank 0");
    for _ in 0..16 {
        other.bank(Bank::new(8)).unwrap();
    }
    says(other.bank(Bank::new(8)).unwrap_err(), "there are 16 banks already");
    let gaps: Vec<Node> = (0..4096).map(|_| other.node(Kind::Align, 0).unwrap()).collect();
    says(other.node(Kind::Align, 0).unwrap_err(), "there are 4,096 nodes already");
    says(other.tell(gaps[0], 0, Resolved).unwrap_err(), "no pass has begun");
    for pass in 0..17 {
        other.begin_pass().unwrap();
        gaps.iter().for_each(|node| other.tell(*node, pass, Resolved).unwrap());
    }
    says(other.to_form(Form::Two).unwrap_err(), "17 passes differ from the one before, and a layout has at most 16 rows");
}

#[test]
fn a_row_of_a_wrong_length_is_refused() {
    let mut program = by_hand();
    program.row(&[(0, Resolved), (10, Resolved), (10, Resolved), (10, Resolved)]);
    let refusal = program.build(64).unwrap_err();
    assert_eq!(refusal, Refusal::RowLength { row: 1, cells: 4, nodes: 5 });
    assert_eq!(
        (refusal.number(), refusal.to_string().as_str()),
        (4, "refused 4: row 1, counted from 0, has 4 cells, and there are 5 nodes")
    );
    assert_eq!(program.to_form(Form::One), Err(Misuse::RowLength { row: 1, cells: 4, nodes: 5 }));
    // a row short by one and the next long by one have as many cells as two good ones
    let mut shifted = by_hand();
    shifted.node(Kind::Label, 0).row(&[(0, Resolved); 7]);
    assert_eq!(shifted.build(64), Err(Refusal::RowLength { row: 0, cells: 5, nodes: 6 }));
}

#[test]
fn counts_and_forms() {
    let mut program = by_hand();
    for _ in 0..16 {
        program.row(&[(0, Resolved); 5]);
    }
    assert_eq!(program.fault(program.build(64).unwrap_err()).to_string().rsplit(": ").next(), Some("17 rows, and there are 1 to 16"));
    let far = |bank| {
        let mut program = Program::new(1);
        program.bank(Bank::new(8)).node(Kind::Switch, bank).node(Kind::OpenData, 30).values(&[0; 4]);
        program.row(&[(9, Resolved), (2, Resolved)]).row(&[(9, Resolved), (3, Resolved)]);
        program.fault(program.build(64).unwrap_err()).to_string().rsplit("malformed, at ").next().unwrap().to_string()
    };
    assert_eq!(far(7), "0: node 0 (switch): there is no bank 7");
    assert_eq!(far(0), "1: node 1 (open): in row 1 it ends at bit 33 of the values, which have 32");
    let paged = |align, number| {
        let mut program = Program::new(1);
        program.bank(Bank { align, ..Bank::new(8) }).node(Kind::Align, 0).row(&[(number, Resolved)]);
        program.choices(Choices { page: Some(8), ..Choices::default() });
        program.fault(program.build(64).unwrap_err()).to_string().rsplit(": ").next().unwrap().to_string()
    };
    assert_eq!((paged(Some(24), 24).as_str(), paged(Some(16), 24).as_str()), ("the label alignment of bank 0", "node 0 (align)"));
    let mut alone = Program::new(1);
    alone.bank(Bank { offset: Some(0), ..Bank::new(8) }).row(&[]);
    assert_eq!(alone.to_form(Form::Two), Err(Misuse::Open));
    alone.choices(Choices { closed: true, ..Choices::default() });
    assert_eq!(alone.to_form(Form::One), Err(Misuse::Closed));
    assert!(alone.to_form(Form::Two).is_ok());
    alone.values(&[0; 65_500]);
    assert_eq!(alone.to_form(Form::Two).unwrap_err().to_string(), "a file or field of 65541 bytes, and there may be 65536");
}

#[test]
fn records_of_what_was_built() {
    let mut program = Program::new(1);
    program.bank(Bank { offset: Some(0), ..Bank::new(8) }).values(&[0x5a; 8_000]);
    program.node(Kind::Data, 0).node(Kind::Reserve, 0).node(Kind::Data, 8);
    program.row(&[(8 * 7_000, Resolved), (8, Resolved), (16, Resolved)]);
    let built = program.build(1 << 16).unwrap();
    let hex = built.intel_hex(0xfff0).unwrap();
    assert!(hex.starts_with(":10FFF0005A5A") && hex.ends_with(":00000001FF\n") && hex.len() <= records::room(7_003, 2));
    let (mut bytes, mut starts, mut sizes) = (vec![0; 7_003], [0; 2], [0; 2]);
    assert_eq!(records::read(records::Format::IntelHex, hex.as_bytes(), 0xfff0, &mut bytes, &mut starts, &mut sizes), Ok(2));
    assert_eq!((bytes, starts, sizes), (built.image.clone(), [0, 56_008], [56_000, 16]));
    assert_eq!(built.s_records(0xfff0, records::Width::Two), Err(Refusal::Malformed { place: 0 }));
    assert!(built.s_records(0xfff0, records::Width::Four).unwrap().starts_with("S3150000FFF05A"));
    // off byte edges there are no records of blocks, and of the whole image there are
    let ragged = by_hand().build(64).unwrap();
    assert_eq!((ragged.intel_hex(0), ragged.ragged_block()), (Err(Refusal::BadPart), Some(Block { offset: 0, size: 10 })));
    for (format, whole) in [
        (records::Format::IntelHex, ragged.whole_intel_hex(0x8000).unwrap()),
        (records::Format::SRecords, ragged.whole_s_records(0x8000, records::Width::Two).unwrap()),
    ] {
        let (mut bytes, mut starts, mut sizes) = (vec![0; 5], [0; 1], [0; 1]);
        assert_eq!(records::read(format, whole.as_bytes(), 0x8000, &mut bytes, &mut starts, &mut sizes), Ok(1));
        assert_eq!((bytes, starts, sizes), (ragged.image.clone(), [0], [40]));
    }
    // gaps are in it too, an address past the last is refused, and an empty image has the last record alone
    assert!(built.whole_intel_hex(0).unwrap().contains(":0B1B5000") && !built.intel_hex(0).unwrap().contains(":0B1B5000"));
    assert_eq!(ragged.whole_intel_hex(u32::MAX - 3), Err(Refusal::Malformed { place: 0 }));
    let mut empty = Program::new(1);
    empty.bank(Bank::new(8)).row(&[]);
    assert_eq!(empty.build(0).unwrap().whole_intel_hex(7).as_deref(), Ok(":00000001FF\n"));
}

/// The room is that of crates/record_room, and files of many shapes fit it.
#[test]
fn files_fit_their_room() {
    let mut draw = Draw(7);
    for _ in 0..300 {
        let bytes = 1 + draw.below(70_000) as usize;
        let (mut starts, mut sizes, mut at) = (Vec::new(), Vec::new(), 0);
        while at < bytes as u64 && starts.len() < 4096 {
            let most = [1, 2, 17, 70_000][draw.below(4) as usize];
            let size = u64::from(1 + draw.below(most)).min(bytes as u64 - at);
            starts.push(8 * at);
            sizes.push(8 * size);
            at += size + u64::from(draw.below(3));
        }
        let (image, load) = (vec![0xa5; bytes], draw.below(1 << 30));
        let mut text = vec![0; records::room(bytes, starts.len())];
        assert!(records::write_hex(&image, &starts, &sizes, load, &mut text).is_ok());
        assert!(records::write_srec(&image, &starts, &sizes, load, records::Width::Four, &mut text).is_ok());
    }
}
