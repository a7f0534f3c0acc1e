//! Refusals, their places, and buffers that have to be left alone.
use denkumari::*;

const FLAGS: &[u8] = &[0, HAS_SIZE | HAS_OFFSET | FILL];

fn banks(flags: &[u8]) -> Banks<'_> {
    Banks { units: &[8, 10], starts: &[0, 64], sizes: &[0, 40], offsets: &[0, 0], aligns: &[0, 0], flags, fill_bits: &[0, 0] }
}

fn nodes<'a>(kinds: &'a [u8], numbers: &'a [u32]) -> Nodes<'a> {
    Nodes { kinds, operands: &[1, 0, 0, 0, 16], numbers, states: &[0; 5], rows: 1, values: &[0xff, 0xc0, 0x2a, 0x80], limit: 10 }
}

/// The answer, and whether everything lent is as it was.
fn laid_out(banks: Banks<'_>, nodes: Nodes<'_>, bytes: usize, places: usize) -> (Result<Layout, Refusal>, bool) {
    let (mut image, mut addresses, mut offsets, mut sizes) = (vec![0xa5; bytes], vec![-7; places], vec![7; places], vec![9; places]);
    let spans = Spans { addresses: &mut addresses, offsets: &mut offsets, sizes: &mut sizes };
    let answer = build(&banks, &nodes, Choices::default(), &mut image, spans);
    let same = image == vec![0xa5; bytes] && addresses == vec![-7; places] && offsets == vec![7; places] && sizes == vec![9; places];
    (answer, same)
}

const KINDS: &[u8] = &[1, 2, 5, 7, 4];
const NUMBERS: &[u32] = &[0, 0, 10, 10, 10];

#[test]
fn worked_example() {
    let (answer, same) = laid_out(banks(FLAGS), nodes(KINDS, NUMBERS), 8, 4);
    assert_eq!(answer, Ok(Layout { k: 1, passes: 2, length: 40, spans: 3, padding: [Padding::default(); 16] }));
    assert!(!same);
}

#[test]
fn refusals_leave_everything_alone() {
    let refused = |banks, nodes, bytes, places, why| assert_eq!(laid_out(banks, nodes, bytes, places), (Err(why), true));
    refused(banks(&[0]), nodes(KINDS, NUMBERS), 8, 4, Refusal::BankCount);
    refused(banks(&[0, 16]), nodes(KINDS, NUMBERS), 8, 4, Refusal::BankNumber { bank: 1 });
    refused(banks(FLAGS), nodes(&[1, 2, 5, 7, 11], NUMBERS), 8, 4, Refusal::Malformed { place: 4 });
    refused(banks(FLAGS), nodes(&[0, 2, 5, 7, 4], NUMBERS), 8, 4, Refusal::DefaultBank { node: 1, passes: 2 });
    refused(banks(FLAGS), nodes(KINDS, &[0, 0, 10, 21, 10]), 8, 4, Refusal::PastBank { node: 4, passes: 2 });
    refused(banks(FLAGS), nodes(&[1, 2, 5, 9, 4], &[0, 0, 10, 5, 10]), 8, 4, Refusal::Overlap { start: 0, size: 10, passes: 2 });
    refused(banks(FLAGS), nodes(KINDS, NUMBERS), 4, 4, Refusal::TooShort { buffer: Buffer::Image, passes: 2 });
    refused(banks(FLAGS), nodes(KINDS, NUMBERS), 8, 2, Refusal::TooShort { buffer: Buffer::Spans, passes: 2 });
}

#[test]
fn files() {
    let mut image = [1; 8];
    let spans = Spans { addresses: &mut [], offsets: &mut [], sizes: &mut [] };
    assert_eq!(layout_form(&[], Fill::Inherited, None, &mut image, spans), Err(Refusal::Malformed { place: 0 }));
    assert_eq!(image, [1; 8]);
}

#[test]
fn files_in_the_other_form() {
    let old = [&[1, 0, 23, 0, 8][..], &[0; 21], &[4, 0, 0, 5, 0, 1, 1]].concat();
    let (mut new, mut back) = ([0xa5; 80], [0xa5; 80]);
    let long = to_form2(&old, &mut new).unwrap();
    assert_eq!((long, &new[..4], new[4], new[31]), (4 + 2 * 27 + 8 + 7, &[16, 0, 1, 2][..], 17, 17));
    assert_eq!(to_form1(&new[..long], &mut back), Ok(old.len()));
    assert_eq!(&back[..old.len()], &old[..]);
    new[57] = 1;
    assert_eq!(to_form1(&new[..long], &mut back), Err(Refusal::FillBitLost));
    assert_eq!(to_form1(&old, &mut back), Err(Refusal::Malformed { place: 0 }));
}

#[test]
fn blocks_hex_and_parts() {
    let (mut starts, mut lengths) = ([7; 3], [9; 3]);
    let (offsets, sizes) = ([20, NO_OFFSET, 0, 10], [5, 5, 10, 3]);
    assert_eq!(get_blocks(&offsets, &sizes, &mut starts, &mut lengths), Ok(2));
    assert_eq!((starts, lengths), ([0, 20, 7], [13, 5, 9]));
    assert_eq!(get_blocks(&offsets, &sizes[..3], &mut starts, &mut lengths), Err(Refusal::Malformed { place: 0 }));
    let short = Refusal::TooShort { buffer: Buffer::Blocks, passes: 0 };
    assert_eq!(get_blocks(&offsets, &sizes, &mut starts[..1], &mut lengths), Err(short));
    assert_eq!(hex(&[0xff, 0xff], 10, &mut [0; 3]), Ok("ffc"));
    assert_eq!(hex(&[0xff], 9, &mut [0; 3]), Err(Refusal::Malformed { place: 0 }));
    let image = [1, 2, 3, 4];
    assert_eq!(part(&image, 8, 16), Ok(&[2, 3][..]));
    assert_eq!(part(&image, 8, 0), Err(Refusal::BadPart));
    assert_eq!(part(&image, u64::MAX - 7, 8), Err(Refusal::BadPart));
}

#[test]
fn an_owned_program_grows_its_image() {
    let mut program = Program::new(10);
    program.bank(Bank { offset: Some(0), ..Bank::new(8) }).node(Kind::Data, 0).row(&[(8 * 5_000, State::Resolved)]).values(&[0x5a; 5_000]);
    let built = program.build(6_000).unwrap();
    assert_eq!((built.layout.length, built.image), (40_000, vec![0x5a; 5_000]));
    assert_eq!((built.spans[0].offset, built.blocks), (Some(0), vec![Block { offset: 0, size: 40_000 }]));
    assert_eq!(program.build(4_999), Err(Refusal::TooShort { buffer: Buffer::Image, passes: 2 }));
}

#[test]
fn choices_are_passed_on() {
    let mut program = Program::new(10);
    program.bank(Bank::new(8)).bank(Bank { size: Some(8), offset: Some(0), fill: true, ones: true, ..Bank::new(8) });
    program.bank(Bank { size: Some(1), offset: Some(8), fill: true, ones: true, ..Bank::new(8) });
    program.row(&[]);
    assert_eq!(program.build(2).unwrap().image, [0xff]);
    program.choices(Choices { fill: Fill::Full, ..Choices::default() });
    assert_eq!(program.build(2).unwrap().image, [0xff, 0x80]);
    program.choices(Choices { page: Some(8), ..Choices::default() });
    assert_eq!(program.build(2), Err(Refusal::OffProfile { rule: 4, at: 2 }));
    let mut alone = Program::new(10);
    alone.bank(Bank::new(8)).node(Kind::Reserve, 0).node(Kind::Align, 0).node(Kind::Label, 0);
    alone.row(&[(10, State::Resolved), (16, State::Resolved), (0, State::Resolved)]);
    assert_eq!(alone.build(0).unwrap().layout.padding[..2], [Padding { bits: 6, units: 0 }, Padding::default()]);
    alone.choices(Choices { closed: true, ..Choices::default() });
    assert_eq!(alone.build(0), Err(Refusal::DefaultBank { node: 0, passes: 2 }));
}

#[test]
fn pages() {
    let flags = [0, HAS_SIZE | HAS_OFFSET];
    let banks =
        Banks { units: &[8, 16], starts: &[0, 0], sizes: &[0, 64], offsets: &[0, 32], aligns: &[0, 0], flags: &flags, fill_bits: &[0, 1] };
    let nodes = Nodes { kinds: &[], operands: &[], numbers: &[], states: &[], rows: 1, values: &[], limit: 1 };
    let mut pages = [None; 16];
    pages[1] = Some(2);
    assert_eq!(profile(&banks, &nodes, Fill::Inherited, 32), Ok(pages));
    assert_eq!(profile(&banks, &nodes, Fill::Inherited, 0), Err(Refusal::OffProfile { rule: 1, at: 0 }));
    assert_eq!(profile(&banks, &nodes, Fill::Inherited, 64), Err(Refusal::OffProfile { rule: 3, at: 1 }));
}

#[test]
fn records_are_written_and_read_back() {
    use records::{line_at_fault, read, write_hex, write_srec, Format, Width};
    let image = [1, 2, 3, 4];
    let mut text = [0; 128];
    let hex = write_hex(&image, &[0, 24], &[8, 8], 16, &mut text).unwrap();
    assert_eq!(&text[..hex], b":0100100001EE\n:0100130004E8\n:00000001FF\n");
    let (mut bytes, mut offsets, mut sizes) = ([0xff; 4], [7; 2], [7; 2]);
    assert_eq!(read(Format::IntelHex, &text[..hex], 16, &mut bytes, &mut offsets, &mut sizes), Ok(2));
    assert_eq!((bytes, offsets, sizes), ([1, 0xff, 0xff, 4], [0, 24], [8, 8]));
    assert_eq!(line_at_fault(Format::IntelHex, &text[..hex], 16), None);
    assert_eq!(line_at_fault(Format::IntelHex, &text[..hex], 17), Some(0));
    assert_eq!(line_at_fault(Format::SRecords, &text[..hex], 16), Some(0));
    let short = Refusal::TooShort { buffer: Buffer::Hex, passes: 0 };
    assert_eq!(write_srec(&image, &[0], &[32], 0, Width::Two, &mut text[..4]), Err(short));
    assert_eq!(write_srec(&image, &[0], &[32], 65_533, Width::Two, &mut text), Err(Refusal::Malformed { place: 0 }));
    assert!(write_srec(&image, &[0], &[32], 65_533, Width::Four, &mut text).is_ok());
    assert_eq!(write_hex(&image, &[1], &[8], 0, &mut text), Err(Refusal::BadPart));
}

#[test]
fn refusals_are_told_in_words() {
    assert_eq!(Refusal::OffProfile { rule: 3, at: 2 }.to_string(), "refused 19: the offset of bank 2 is not on a page");
    let refusal = Refusal::Overlap { start: 0, size: 128, passes: 2 };
    assert_eq!(refusal.to_string(), "refused 12: a placement would share a bit with what stands from bit 0 on, 128 bits");
    let error: Box<dyn std::error::Error> = Box::new(Refusal::TooShort { buffer: Buffer::Spans, passes: 1 });
    assert_eq!(error.to_string(), "refused 14: the room for the lists of spans is too short");
}

#[test]
fn a_map_names_the_node_at_fault_of_an_overlap() {
    let banks = Banks { units: &[8], starts: &[0], sizes: &[0], offsets: &[0], aligns: &[0], flags: &[HAS_OFFSET], fill_bits: &[0] };
    let numbers = [8, 0, 8];
    let nodes = Nodes { kinds: &[5, 9, 4], operands: &[0, 0, 8], numbers: &numbers, states: &[0; 3], rows: 1, values: &[1, 2], limit: 1 };
    let choices = Choices::default();
    let mapped = map(&banks, &nodes, choices).unwrap();
    let why = Refusal::Overlap { start: 0, size: 8, passes: mapped.passes };
    assert_eq!(mapped.stopped, Some(Stopped { why, node: Some(2) }));
    assert_eq!(mapped.nodes.len(), 3);
    assert_eq!(mapped.nodes[2], Standing { bank: 0, position: 0, output: Some(0), size: 8 });
    let apart = Nodes { numbers: &[8, 8, 8], ..nodes };
    assert_eq!(map(&banks, &apart, choices).unwrap().stopped, None);
    let padded = Nodes { kinds: &[7, 8, 7], numbers: &[4, 16, 4], ..nodes };
    assert_eq!(map(&banks, &padded, choices).unwrap().padding[0], Padding { bits: 12, units: 1 });
    assert_eq!(map(&Banks { units: &[0], ..banks }, &apart, choices), Err(Refusal::BankNumber { bank: 0 }));
}
