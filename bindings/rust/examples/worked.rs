use denkumari::{build, get_blocks, hex, Banks, Choices, Nodes, Refusal, Spans, FILL, HAS_OFFSET, HAS_SIZE};

fn main() -> Result<(), Refusal> {
    let flags = &[0, HAS_SIZE | HAS_OFFSET | FILL];
    let banks = Banks { units: &[8, 10], starts: &[0, 64], sizes: &[0, 40], offsets: &[0, 0], aligns: &[0, 0], flags, fill_bits: &[0, 0] };
    // switch to bank 1, a label, ten bits of data, ten reserved, an instruction of ten bits; one row
    let (kinds, operands, numbers) = (&[1, 2, 5, 7, 4], &[1, 0, 0, 0, 16], &[0, 0, 10, 10, 10]);
    let nodes = Nodes { kinds, operands, numbers, states: &[0; 5], rows: 1, values: &[0xff, 0xc0, 0x2a, 0x80], limit: 10 };
    let (mut image, mut addresses, mut offsets, mut sizes) = ([0; 8], [0; 4], [0; 4], [0; 4]);
    let spans = Spans { addresses: &mut addresses, offsets: &mut offsets, sizes: &mut sizes };
    let layout = build(&banks, &nodes, Choices::default(), &mut image, spans)?;
    let (mut starts, mut lengths, mut digits) = ([0; 4], [0; 4], [0; 16]);
    let blocks = get_blocks(&offsets[..layout.spans], &sizes[..layout.spans], &mut starts, &mut lengths)?;
    println!("passes {}", layout.k);
    for (start, length) in starts.iter().zip(&lengths).take(blocks) {
        println!("block {start} {length}");
    }
    println!("image {}", hex(&image, layout.length, &mut digits)?);
    Ok(())
}
