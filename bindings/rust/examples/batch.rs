//! The crate as a side of the comparison with customasm's Rust: files of either form from standard input, each behind four bytes of length, big-endian;
//! a line for each (oracle/README.md, "The lines"). It lends what the program `layout` lends.
use denkumari::{get_blocks, hex, layout_form, Fill, Refusal, Spans, NO_OFFSET};
use std::io::{self, BufWriter, Read, Write};

const SPANS: usize = 4096;

struct Lent {
    image: Vec<u8>,
    addresses: Vec<i64>,
    offsets: Vec<u64>,
    sizes: Vec<u64>,
    starts: Vec<u64>,
    lengths: Vec<u64>,
    digits: Vec<u8>,
}

fn joined(parts: Vec<String>) -> String {
    if parts.is_empty() {
        "-".to_string()
    } else {
        parts.join(",")
    }
}

fn accepted(lent: &mut Lent, file: &[u8]) -> Result<String, Refusal> {
    let spans = Spans { addresses: &mut lent.addresses, offsets: &mut lent.offsets, sizes: &mut lent.sizes };
    let layout = layout_form(file, Fill::Inherited, None, &mut lent.image, spans)?;
    let n = layout.spans;
    let blocks = get_blocks(&lent.offsets[..n], &lent.sizes[..n], &mut lent.starts, &mut lent.lengths)?;
    let digits = hex(&lent.image, layout.length, &mut lent.digits)?;
    let image = if digits.is_empty() { "-" } else { digits };
    let offset = |o: u64| if o == NO_OFFSET { "-".to_string() } else { o.to_string() };
    let spans = (0..n).map(|i| format!("{}:{}:{}", lent.addresses[i], offset(lent.offsets[i]), lent.sizes[i])).collect();
    let blocks = (0..blocks).map(|i| format!("{}:{}", lent.starts[i], lent.lengths[i])).collect();
    Ok(format!("ok {} {} {} {} | spans {} | blocks {}", layout.k, layout.passes, layout.length, image, joined(spans), joined(blocks)))
}

fn refused(why: Refusal) -> String {
    let (place, passes) = match why {
        Refusal::BankCount => ("0".to_string(), None),
        Refusal::BankNumber { bank } => (bank.to_string(), None),
        Refusal::BanksOverlap { first, second } => (format!("{first} {second}"), None),
        Refusal::Malformed { place } => (place.to_string(), None),
        Refusal::Overlap { start, size, passes } => (format!("{start} {size}"), Some(passes)),
        Refusal::Unresolved { passes } => ("0".to_string(), Some(passes)),
        Refusal::TooShort { buffer, passes } => ((buffer as u8).to_string(), Some(passes)),
        Refusal::PositionPast { node, passes }
        | Refusal::LabelOffBoundary { node, passes }
        | Refusal::DefaultBank { node, passes }
        | Refusal::PastBank { node, passes }
        | Refusal::NoOutput { node, passes }
        | Refusal::StoreFull { node, passes } => (node.to_string(), Some(passes)),
        other => (format!("{other:?}"), None),
    };
    let passes = passes.map_or(String::new(), |run| format!(" passes {run}"));
    format!("refused {} {place}{passes}", why.number())
}

fn main() -> io::Result<()> {
    let zeros = || vec![0; SPANS];
    let (image, digits) = (vec![0; 16384], vec![0; 32768]);
    let mut lent = Lent { image, addresses: vec![0; SPANS], offsets: zeros(), sizes: zeros(), starts: zeros(), lengths: zeros(), digits };
    let (mut input, mut output) = (io::stdin().lock(), BufWriter::new(io::stdout().lock()));
    let mut head = [0; 4];
    while input.read_exact(&mut head).is_ok() {
        let mut file = vec![0; u32::from_be_bytes(head) as usize];
        input.read_exact(&mut file)?;
        writeln!(output, "{}", accepted(&mut lent, &file).unwrap_or_else(refused))?;
    }
    Ok(())
}
