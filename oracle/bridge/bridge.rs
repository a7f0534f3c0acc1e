//! From customasm's resolver to the proved library, and back to customasm's output.
//!
//! In customasm, at commit a45db8ff31, this file is `src/asm/bridge.rs`, and `resolve_and_build` takes the place of three calls: `output::check_bank_overlap`,
//! `resolver::resolve_iteratively` and `output::build_output`. The resolver goes on evaluating, pass by pass, by its own `resolve_once`; where everything
//! stands, which pass was the last, what is refused and every bit of the image are the library's. oracle/bridge/README.md says what was tried, and on what.

use crate::*;
use denkumari::{Bank, Built, Fault, Kind, Misuse, NotBuilt, Recorder, Refusal, State};

/// What was assembled.
pub struct Assembled {
    /// customasm's count of iterations, the library's K.
    pub iterations: usize,
    /// The passes that ran, the last one included.
    pub passes: usize,
    /// The image with its spans, as `build_output` gives it.
    pub output: util::BitVec,
}

/// Why nothing was. The report has it in words.
pub enum Stopped {
    /// customasm stopped by itself, and has said why. Where the library refuses 7 in that pass too, a label between two addresses, its words.
    Reported(Option<(Box<Fault>, Option<diagn::Span>)>),
    /// The library refused the layout; the place in the source, where the refusal has one.
    Refused(Box<Fault>, Option<diagn::Span>),
    /// The layout has more of something than the library takes, or a number that no layout has.
    Limits(Misuse),
    /// customasm and the library do not agree on the passes: customasm's count, or none for no convergence, and the library's.
    Apart(Option<usize>, Option<usize>),
}

/// A part of the tree that the layout knows of.
enum Part<'ast> {
    Switch,
    Label,
    Constant,
    Instruction(&'ast asm::AstInstruction),
    Data(&'ast asm::AstDirectiveData, usize),
    Res(&'ast asm::AstDirectiveRes),
    Align(&'ast asm::AstDirectiveAlign),
    Addr(&'ast asm::AstDirectiveAddr),
    Assert,
}

struct Step<'ast> {
    part: Part<'ast>,
    node: denkumari::Node,
    span: diagn::Span,
    bank: util::ItemRef<asm::Bankdef>,
}

/// The tree, walked as `ResolveIterator` walks it, told to the recorder. What the iterator passes over is left out.
fn walk<'ast>(
    ast: &'ast asm::AstTopLevel,
    decls: &asm::ItemDecls,
    defs: &asm::ItemDefs,
    recorder: &mut Recorder,
) -> Result<Vec<Step<'ast>>, (Misuse, diagn::Span)> {
    let mut steps = Vec::new();
    let mut bank = util::ItemRef::new(0);
    for any in &ast.nodes {
        let mut step = |recorder: &mut Recorder, part, kind, operand: usize, span, bank| {
            let operand = u32::try_from(operand).unwrap_or(u32::MAX);
            let node = recorder.node(kind, operand).map_err(|misuse| (misuse, span))?;
            steps.push(Step { part, node, span, bank });
            Ok::<(), (Misuse, diagn::Span)>(())
        };
        match any {
            asm::AstAny::DirectiveBank(at) => {
                bank = at.item_ref.unwrap();
                step(recorder, Part::Switch, Kind::Switch, bank.get_raw(), at.header_span, bank)?;
            }
            // a bank's definition switches to it too
            asm::AstAny::DirectiveBankdef(at) => {
                bank = at.item_ref.unwrap();
                step(recorder, Part::Switch, Kind::Switch, bank.get_raw(), at.header_span, bank)?;
            }
            asm::AstAny::Symbol(at) => {
                let decl = decls.symbols.get(at.item_ref.unwrap());
                let (part, kind) = match at.kind {
                    asm::AstSymbolKind::Label => (Part::Label, Kind::Label),
                    asm::AstSymbolKind::Constant(_) => (Part::Constant, Kind::Constant),
                };
                step(recorder, part, kind, decl.depth, at.decl_span, bank)?;
                let node = steps.last().unwrap().node;
                recorder.name(node, &decl.name, "").map_err(|misuse| (misuse, at.decl_span))?;
            }
            asm::AstAny::Instruction(at) => step(recorder, Part::Instruction(at), Kind::Instruction, 0, at.span, bank)?,
            asm::AstAny::DirectiveData(at) => {
                for (i, item) in at.item_refs.iter().enumerate() {
                    let kind = if defs.data_elems.get(*item).elem_size.is_some() { Kind::Data } else { Kind::OpenData };
                    step(recorder, Part::Data(at, i), kind, 0, at.elems[i].span(), bank)?;
                }
            }
            asm::AstAny::DirectiveRes(at) => step(recorder, Part::Res(at), Kind::Reserve, 0, at.header_span, bank)?,
            asm::AstAny::DirectiveAlign(at) => step(recorder, Part::Align(at), Kind::Align, 0, at.header_span, bank)?,
            asm::AstAny::DirectiveAddr(at) => step(recorder, Part::Addr(at), Kind::Addr, 0, at.header_span, bank)?,
            asm::AstAny::DirectiveAssert(at) => step(recorder, Part::Assert, Kind::Assert, 0, at.header_span, bank)?,
            _ => {}
        }
    }
    Ok(steps)
}

impl Step<'_> {
    /// The encoding of a written item.
    fn encoding<'d>(&self, defs: &'d asm::ItemDefs) -> Option<&'d expr::Value> {
        match self.part {
            Part::Instruction(at) => Some(&defs.instructions.get(at.item_ref.unwrap()).encoding),
            Part::Data(at, i) => Some(&defs.data_elems.get(at.item_refs[i]).encoding),
            _ => None,
        }
    }

    /// What `advance_address` reads of the definitions: a number, and whether it is resolved. It reads none of a constant's or an assertion's.
    fn told(&self, defs: &asm::ItemDefs) -> (usize, Option<bool>) {
        let size = || integer(self.encoding(defs)).and_then(|bigint| bigint.size);
        match self.part {
            Part::Switch | Part::Label => (0, Some(true)),
            Part::Constant | Part::Assert => (0, None),
            Part::Instruction(at) => {
                let instr = defs.instructions.get(at.item_ref.unwrap());
                (size().or(instr.encoding_size_guess).unwrap_or(0), Some(instr.resolved))
            }
            Part::Data(at, i) => {
                let elem = defs.data_elems.get(at.item_refs[i]);
                (elem.elem_size.or(size()).unwrap_or(0), Some(elem.resolved))
            }
            Part::Res(at) => {
                let res = defs.res_directives.get(at.item_ref.unwrap());
                (res.reserve_size, Some(res.resolved))
            }
            Part::Align(at) => {
                let align = defs.align_directives.get(at.item_ref.unwrap());
                (align.align_size, Some(align.resolved))
            }
            Part::Addr(at) => {
                let addr = defs.addr_directives.get(at.item_ref.unwrap());
                (addr.offset_from_bank_start_in_bits, Some(addr.resolved))
            }
        }
    }
}

fn integer(value: Option<&expr::Value>) -> Option<&util::BigInt> {
    match value {
        Some(expr::Value::Integer(_, bigint)) => Some(bigint),
        _ => None,
    }
}

/// The bits of an integer, the highest first, from the top of each byte, as `BitVec::write_bigint` takes them.
fn bits(bigint: &util::BigInt, size: usize) -> Vec<u8> {
    let mut bytes = vec![0; size.div_ceil(8)];
    for i in (0..size).filter(|i| bigint.get_bit(size - 1 - i)) {
        bytes[i / 8] |= 0x80 >> (i % 8);
    }
    bytes
}

/// A number within the library's limits; past them the layout is refused as it would be by document 01's table.
fn within<T: TryFrom<usize>>(report: &mut diagn::Report, span: diagn::Span, number: usize) -> Result<T, Stopped> {
    T::try_from(number).map_err(|_| {
        report.error_span("value is outside the supported range", span);
        Stopped::Reported(None)
    })
}

/// What the recorder turns away, at its place in the source.
fn limits(report: &mut diagn::Report, span: diagn::Span, misuse: Misuse) -> Stopped {
    report.error_span(misuse.to_string(), span);
    Stopped::Limits(misuse)
}

/// The banks as customasm's `define` left them. Fill bits are zero, as customasm has them.
fn banks(
    report: &mut diagn::Report,
    decls: &asm::ItemDecls,
    defs: &asm::ItemDefs,
    recorder: &mut Recorder,
) -> Result<(), Stopped> {
    for i in 0..defs.bankdefs.len() {
        let bank = defs.bankdefs.get(util::ItemRef::new(i));
        let span = decls.bankdefs.get(bank.item_ref).span;
        let mut number = |number: Option<usize>| number.map(|number| within::<u32>(report, span, number)).transpose();
        let (size, offset, align) =
            (number(bank.size_in_bits)?, number(bank.output_offset)?, number(bank.label_align)?);
        let unit = within(report, span, bank.addr_unit)?;
        let start = bank.addr_start.checked_into::<i64>(report, span).map_err(|()| Stopped::Reported(None))?;
        let record = Bank { unit, start, size, offset, align, fill: bank.fill, ones: false };
        recorder.bank(record).map_err(|misuse| limits(report, span, misuse))?;
    }
    Ok(())
}

/// What `check_bank_overlap` asks, ahead of the first pass: the library's refusals of the banks alone.
fn overlap(report: &mut diagn::Report, decls: &asm::ItemDecls, banks: &Recorder) -> Result<(), Stopped> {
    let mut banks = banks.clone();
    banks.begin_pass().map_err(Stopped::Limits)?;
    match banks.build(0) {
        Err(NotBuilt::Refused(fault)) if fault.refusal.number() <= 3 => {
            let at = match fault.refusal {
                Refusal::BankNumber { bank } | Refusal::BanksOverlap { first: bank, .. } => {
                    decls.bankdefs.get(util::ItemRef::new(bank as usize)).span
                }
                _ => decls.bankdefs.get(util::ItemRef::new(0)).span,
            };
            report.error_span(fault.to_string(), at);
            Err(Stopped::Refused(fault, Some(at)))
        }
        _ => Ok(()),
    }
}

/// The pass that `resolve_once` has just run. A node's own state is not kept by customasm, only whether it is resolved; one that is not, a constant and an
/// assertion get the pass's: that gives the library the same pass, since a pass is as its least resolved node, and a position is known by resolved nodes alone.
fn record(
    report: &mut diagn::Report,
    steps: &[Step],
    defs: &asm::ItemDefs,
    recorder: &mut Recorder,
    pass: asm::ResolutionState,
) -> Result<(), Stopped> {
    recorder.begin_pass().map_err(Stopped::Limits)?;
    for step in steps {
        let (number, resolved) = step.told(defs);
        let state = match (resolved, pass) {
            (Some(true), _) | (None, asm::ResolutionState::Resolved) => State::Resolved,
            (_, asm::ResolutionState::Unresolved) => State::Unresolved,
            _ => State::Stable,
        };
        let number = within(report, step.span, number)?;
        recorder.tell(step.node, number, state).map_err(|misuse| limits(report, step.span, misuse))?;
    }
    Ok(())
}

/// The values as the last pass left them.
fn values(
    report: &mut diagn::Report,
    steps: &[Step],
    defs: &asm::ItemDefs,
    recorder: &mut Recorder,
) -> Result<(), Stopped> {
    for step in steps {
        let Some(encoding) = step.encoding(defs) else { continue };
        let size = step.told(defs).0;
        let bytes = integer(Some(encoding)).map_or(vec![0; size.div_ceil(8)], |bigint| bits(bigint, size));
        let value = recorder.value(step.node, &bytes, size as u32);
        value.map_err(|misuse| limits(report, step.span, misuse))?;
    }
    Ok(())
}

/// Resolves the tree and builds its output, in an image of at most so many bytes.
#[allow(clippy::too_many_arguments)]
pub fn resolve_and_build(
    report: &mut diagn::Report,
    opts: &asm::AssemblyOptions,
    fileserver: &mut dyn util::FileServer,
    ast: &asm::AstTopLevel,
    decls: &asm::ItemDecls,
    defs: &mut asm::ItemDefs,
    max_iterations: usize,
    most_bytes: usize,
) -> Result<Assembled, Stopped> {
    // a limit above 255 is none of the library's; where fewer passes are enough, every higher limit gives the same (document 02, Ticket 14)
    let mut recorder = Recorder::new(max_iterations.min(255) as u8);
    banks(report, decls, defs, &mut recorder)?;
    overlap(report, decls, &recorder)?;
    let steps = walk(ast, decls, defs, &mut recorder).map_err(|(misuse, span)| limits(report, span, misuse))?;

    // `resolve_iteratively`, with each pass recorded; a pass that stops with an error is recorded as far as it came
    let (mut iterations, mut last, mut converged, mut reported) = (0, false, false, false);
    while !last {
        last = converged || iterations == max_iterations || iterations + 1 == max_iterations;
        let again = converged || iterations == max_iterations;
        let pass = iterations + 1;
        let state =
            asm::resolver::resolve_once(report, opts, fileserver, ast, decls, defs, pass, pass == 1 && !again, last);
        if state.is_err() && !last {
            return Err(Stopped::Reported(None));
        }
        record(report, &steps, defs, &mut recorder, state.unwrap_or(asm::ResolutionState::Unresolved))?;
        converged = state.is_ok_and(|state| state.is_stable_or_resolved());
        reported = state.is_err();
        if !again {
            iterations = pass;
        }
    }
    values(report, &steps, defs, &mut recorder)?;

    let theirs = converged.then_some(iterations);
    // where a message has no place of its own
    let begin = steps.first().map_or(decls.bankdefs.get(util::ItemRef::new(0)).span, |step| step.span);
    let apart = |report: &mut diagn::Report, mine: Option<usize>| {
        report.error_span("the layout library does not agree on the number of iterations", begin);
        Err(Stopped::Apart(theirs, mine))
    };
    match recorder.build(most_bytes) {
        Ok(_) if reported => Err(Stopped::Reported(None)),
        Ok(built) if theirs == Some(built.layout.k as usize) => output(report, &steps, defs, built),
        Ok(built) => apart(report, Some(built.layout.k as usize)),
        Err(NotBuilt::Misuse(misuse)) => Err(limits(report, begin, misuse)),
        Err(NotBuilt::Refused(fault)) => {
            let number = fault.refusal.number();
            let at = fault.node.as_ref().and_then(|at| steps.get(at.node)).map(|step| step.span);
            if reported {
                return Err(Stopped::Reported((number == 7).then_some((fault, at))));
            }
            // 7 and 8 end the passes of customasm too; from 9 on the passes are over
            if (theirs.is_some() && matches!(number, 7 | 8)) || (theirs.is_none() && number >= 9) {
                return apart(report, None);
            }
            report.push_parent(fault.to_string(), at.unwrap_or(begin));
            if let Some(other) = fault.other.as_ref().and_then(|at| steps.get(at.node)) {
                report.note_span("overlaps with:", other.span);
            }
            report.pop_parent();
            Err(Stopped::Refused(fault, at))
        }
    }
}

/// The library's image and spans as `build_output` gives them.
fn output(
    report: &mut diagn::Report,
    steps: &[Step],
    defs: &asm::ItemDefs,
    built: Built,
) -> Result<Assembled, Stopped> {
    for step in steps {
        let done = match step.part {
            Part::Instruction(at) => {
                let instr = defs.instructions.get(at.item_ref.unwrap());
                asm::resolver::finalize_instruction(report, step.span, instr)
            }
            Part::Data(at, i) => {
                let elem = defs.data_elems.get(at.item_refs[i]);
                asm::resolver::check_final_data_element(report, step.span, elem)
            }
            _ => continue,
        };
        let size = done.map_err(|()| Stopped::Reported(None))?.size;
        // what is written has to be as long as what was laid out
        if size != Some(step.told(defs).0) {
            report.error_span("the encoding's size is not the one that was laid out", step.span);
            return Err(Stopped::Reported(None));
        }
    }
    let mut output = util::BitVec::new();
    let length = built.layout.length as usize;
    let bit = |i: usize| built.image[i / 8] >> (7 - i % 8) & 1 != 0;
    for i in (0..length).filter(|i| bit(*i) || i + 1 == length) {
        output.write_bit(i, bit(i));
    }
    let spanned = steps.iter().filter(|step| matches!(step.part, Part::Label | Part::Instruction(_) | Part::Data(..)));
    for (step, span) in spanned.zip(&built.spans) {
        let start = &defs.bankdefs.get(step.bank).addr_start;
        // whole units from the bank's start on, which are none below zero
        let first = start.checked_into::<i64>(report, step.span).map_err(|()| Stopped::Reported(None))?;
        let units = util::BigInt::from((span.address - first) as usize);
        let address = units.checked_add(report, step.span, start).map_err(|()| Stopped::Reported(None))?;
        output.mark_span(span.offset.map(|offset| offset as usize), span.size as usize, address, step.span);
    }
    Ok(Assembled { iterations: built.layout.k as usize, passes: built.layout.passes as usize, output })
}
