use denkumari::{Bank, Form, Kind, Recorder, State};

fn main() -> Result<(), Box<dyn std::error::Error>> {
    let mut recorder = Recorder::new(10);
    // bank 0 is there for labels and items that stand ahead of any bank; here nothing does
    recorder.bank(Bank::new(8))?;
    let flash = recorder.bank(Bank { size: Some(8 * 64), offset: Some(0), ..Bank::new(8) })?;
    recorder.node(Kind::Switch, flash)?;
    let jump = recorder.node(Kind::Instruction, 0)?;
    let end = recorder.node(Kind::Label, 0)?;
    let table = recorder.node(Kind::Data, 0)?;
    recorder.name(jump, "jmp end", "main.asm:3")?;
    recorder.name(end, "end", "main.asm:4")?;

    // a jump is short where its target is near: pass 1 guesses a long one, and each other pass asks where the one before left the label
    let (mut last, mut target) = (0, i64::MAX);
    loop {
        let bits = if target < 128 { 16 } else { 24 };
        recorder.begin_pass()?;
        recorder.tell(jump, bits, if bits == last { State::Stable } else { State::Unresolved })?;
        recorder.tell(table, 16, State::Resolved)?;
        let stands = recorder.places()?[end.number()].address;
        if (bits, stands) == (last, target) {
            break;
        }
        (last, target) = (bits, stands);
    }
    recorder.value(jump, &[0xeb, target as u8], 16)?;
    recorder.value(table, &[0xbe, 0xef], 16)?;

    let built = recorder.build(1024)?;
    println!("passes {}", built.layout.k);
    println!("image {}", built.digits()?);
    println!("end stands at address {}", built.span(end.number()).map_or(0, |span| span.address));
    print!("{}", built.intel_hex(0x8000)?);
    // the same layout for tools/layout and tools/map, and the names beside it
    let file = recorder.to_form(Form::Two)?;
    println!("{} bytes of form 2", file.len());
    print!("{}", recorder.names());
    Ok(())
}
