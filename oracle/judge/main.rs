//! The judge: runs customasm's own code on form 1 files. `oracle/README.md` says what its lines mean.

use customasm::{asm, diagn, expr, util};
use std::io::{Read, Write};
use std::panic::{catch_unwind, AssertUnwindSafe};

pub mod form;
mod selftest;

const STORED: usize = 512;
const IMAGE_BITS: usize = 16_384 * 8;

/// The Rust's tables for one file.
pub struct Case {
    pub report: diagn::Report,
    pub decls: asm::ItemDecls,
    pub defs: asm::ItemDefs,
}

fn main() {
    let asked = |wanted: &str| std::env::args().any(|word| word == wanted);
    if asked("--selftest") {
        return selftest::run();
    }
    if asked("--spans") {
        return answer_spans();
    }

    let (raw, one) = (asked("--raw"), asked("--one"));
    std::panic::set_hook(Box::new(|_| {}));

    let mut input = Vec::new();
    std::io::stdin().read_to_end(&mut input).unwrap();

    let mut lines = String::new();
    let mut rest = &input[..];
    while one || !rest.is_empty() {
        let file = if one { rest } else { take(&mut rest) };
        lines += &catch_unwind(AssertUnwindSafe(|| answer(file, raw))).unwrap_or_else(|_| "panic".to_string());
        lines += "\n";
        if one {
            break;
        }
    }

    std::io::stdout().write_all(lines.as_bytes()).unwrap();
}

/// The next file of the stream: four bytes of length, big-endian, and the file.
pub fn take<'a>(rest: &mut &'a [u8]) -> &'a [u8] {
    let length = u32::from_be_bytes(rest[..4].try_into().unwrap()) as usize;
    let file = &rest[4..4 + length];
    *rest = &rest[4 + length..];
    file
}

/// Lines of spans, `OFFSET:SIZE` or `-:SIZE` with commas between, to lines of blocks, through the Rust's own `get_blocks`.
fn answer_spans() {
    for line in std::io::stdin().lines() {
        let mut output = util::BitVec::new();
        for word in line.unwrap().split(',') {
            let (offset, size) = word.split_once(':').unwrap();
            output.mark_span(offset.parse().ok(), size.parse().unwrap(), util::BigInt::from(0), span(0));
        }
        println!("{}", blocks(&output));
    }
}

pub fn list(items: Vec<String>) -> String {
    if items.is_empty() {
        "-".to_string()
    } else {
        items.join(",")
    }
}

pub fn blocks(output: &util::BitVec) -> String {
    list(output.get_blocks().iter().map(|block| format!("{}:{}", block.offset, block.size)).collect())
}

/// With `raw`, what the Rust does wherever it can be run at all; else its verdict where it has a say.
pub fn answer(bytes: &[u8], raw: bool) -> String {
    let Some(file) = form::read(bytes) else { return "nosay 4".to_string() };

    if file.banks.is_empty() || (!raw && file.banks.len() > 16) {
        return "nosay 1".to_string();
    }
    if !file.banks.iter().all(|bank| bank.unit != 0 && (raw || (bank.is_within_limits() && !bank.is_empty_fill()))) {
        return "nosay 2".to_string();
    }

    let mut case = Case::new(&file, !raw);
    if asm::output::check_bank_overlap(&mut case.report, &case.decls, &case.defs).is_err() {
        return case.overlapping_banks();
    }

    if !file.has_sound_lists() || !(raw || file.is_within_counts()) {
        return "nosay 4".to_string();
    }

    case.run(&file, raw)
}

fn span(node: usize) -> diagn::Span {
    diagn::Span::new(node)
}

fn probe(node: usize, probe: asm::Probe) -> asm::AstAny {
    asm::AstAny::DirectiveAssert(asm::AstDirectiveAssert { header_span: span(node), probe })
}

impl Case {
    pub fn new(file: &form::File, strict: bool) -> Case {
        let told = asm::Told {
            operands: file.nodes.iter().map(|node| node.1).collect(),
            rows: file.rows.clone(),
            values: file.values.clone(),
            passes: 0,
            placed: vec![None; file.nodes.len()],
        };

        let mut case =
            Case { report: diagn::Report::new(), decls: asm::ItemDecls::new(), defs: asm::ItemDefs::new(told) };
        case.report.strict = strict;
        case.define_banks(file);
        case
    }

    /// Through the Rust's own `define`. Its default bank gives way to the file's bank 0, and a size that is no whole number of
    /// units, which source text cannot say, is set afterwards.
    fn define_banks(&mut self, file: &form::File) {
        let mut nodes = Vec::new();
        for (i, bank) in file.banks.iter().enumerate() {
            self.decls.bankdefs.declare(i.to_string(), i, 0);
            let number = |value: Option<usize>| value.map(|value| expr::Expr::number(value, span(i)));
            nodes.push(asm::AstAny::DirectiveBankdef(asm::AstDirectiveBankdef {
                item_ref: Some(util::ItemRef::new(i + 1)),
                header_span: span(i),
                addr_unit: number(Some(bank.unit)),
                label_align: number(bank.label_align),
                addr_start: Some(expr::Expr::number(bank.start as i128, span(i))),
                addr_size: number(bank.size.map(|size| size / bank.unit)),
                addr_end: None,
                output_offset: number(bank.offset),
                fill: bank.fill,
                userdata: None,
            }));
        }

        let ast = asm::AstTopLevel { nodes };
        let opts = asm::AssemblyOptions::new();
        asm::defs::define_banks(&mut self.report, &opts, &ast, &mut self.decls, &mut self.defs).unwrap();
        self.defs.bankdefs.defs.remove(0);

        for (i, bank) in file.banks.iter().enumerate() {
            let bankdef = &mut self.defs.bankdefs.defs[i];
            bankdef.item_ref = util::ItemRef::new(i);
            if bank.size.is_some_and(|size| size % bank.unit != 0) {
                bankdef.size_in_bits = bank.size;
            }
        }
    }

    /// The node as the Rust knows it, with its item.
    fn node(&mut self, file: &form::File, i: usize) -> asm::AstAny {
        let (kind, operand) = file.nodes[i];
        let header_span = span(i);

        match kind {
            1 => asm::AstAny::DirectiveBank(asm::AstDirectiveBank {
                item_ref: Some(util::ItemRef::new(operand as usize)),
                header_span,
            }),
            2 | 3 => {
                self.decls.symbols.declare(i.to_string(), i, operand as usize);
                let item_ref =
                    Some(self.defs.symbols.add(asm::Symbol { value: expr::Value::Unknown, resolved: false }));
                let kind = if kind == 2 { asm::AstSymbolKind::Label } else { asm::AstSymbolKind::Constant(()) };
                asm::AstAny::Symbol(asm::AstSymbol { item_ref, decl_span: header_span, kind })
            }
            4 => asm::AstAny::Instruction(asm::AstInstruction {
                item_ref: Some(self.defs.instructions.add(asm::Instruction {
                    encoding: expr::Value::Unknown,
                    encoding_size_guess: None,
                    resolved: false,
                })),
                span: header_span,
            }),
            5 | 6 => {
                let elem_size = (kind == 5).then(|| self.defs.told.declared(header_span));
                let elem = asm::DataElement { elem_size, encoding: expr::Value::Unknown, resolved: false };
                asm::AstAny::DirectiveData(asm::AstDirectiveData {
                    item_refs: vec![self.defs.data_elems.add(elem)],
                    header_span,
                    elems: vec![expr::Expr::number(0, header_span)],
                })
            }
            7 => asm::AstAny::DirectiveRes(asm::AstDirectiveRes {
                item_ref: Some(self.defs.res_directives.add(asm::ResDirective { reserve_size: 0, resolved: false })),
                header_span,
            }),
            8 => asm::AstAny::DirectiveAlign(asm::AstDirectiveAlign {
                item_ref: Some(self.defs.align_directives.add(asm::AlignDirective { align_size: 0, resolved: false })),
                header_span,
                expr: expr::Expr::number(0, header_span),
            }),
            9 => asm::AstAny::DirectiveAddr(asm::AstDirectiveAddr {
                item_ref: Some(
                    self.defs
                        .addr_directives
                        .add(asm::AddrDirective { offset_from_bank_start_in_bits: 0, resolved: false }),
                ),
                header_span,
            }),
            10 => probe(i, asm::Probe::No),
            _ => asm::AstAny::DirectiveOnce(()),
        }
    }

    /// The file's own nodes, behind one probe that counts the passes; with `watched`, a probe after each node too, which sees the
    /// positions on the way.
    pub fn tree(&mut self, file: &form::File, watched: bool) -> asm::AstTopLevel {
        let mut nodes = vec![probe(0, asm::Probe::PassBegins)];
        for i in 0..file.nodes.len() {
            nodes.push(self.node(file, i));
            if watched {
                nodes.push(probe(i, asm::Probe::NodeDone));
            }
        }
        asm::AstTopLevel { nodes }
    }

    /// The Rust's passes over the tree.
    fn resolve(&mut self, file: &form::File, watched: bool) -> Result<(usize, asm::AstTopLevel), ()> {
        let ast = self.tree(file, watched);
        let iterations = asm::resolver::resolve_iteratively(
            &mut self.report,
            &asm::AssemblyOptions::new(),
            &mut util::FileServerMock::new(),
            &ast,
            &self.decls,
            &mut self.defs,
            file.limit,
        )?;
        Ok((iterations, ast))
    }

    fn run(mut self, file: &form::File, raw: bool) -> String {
        if !raw {
            let mut scout = Case::new(file, true);
            let _ = scout.resolve(file, true);
            if let Some((reason, _)) = scout.report.no_say {
                return format!("nosay {}", reason);
            }
        }

        let Ok((iterations, ast)) = self.resolve(file, false) else { return self.unresolved() };

        match asm::output::build_output(&mut self.report, &ast, &self.decls, &self.defs) {
            Err(()) => self.not_built(raw),
            Ok(output) => self.built(iterations, &output, raw),
        }
    }

    fn overlapping_banks(&self) -> String {
        let (first, second) = self.report.find("output of bank").expect("banks overlap");
        format!("refused 3 {} {}", first.span.unwrap().node, second.unwrap().span.unwrap().node)
    }

    fn unresolved(&self) -> String {
        let passes = self.defs.told.passes;

        if let Some((label, _)) = self.report.find("position is not aligned to an address") {
            format!("refused 7 {} passes {}", label.span.unwrap().node, passes)
        } else if self.report.find("value is outside").is_some() {
            format!("out of range passes {}", passes)
        } else {
            format!("refused 8 0 passes {}", passes)
        }
    }

    fn not_built(&self, raw: bool) -> String {
        let found = [
            (9, "usage of the default bank"),
            (10, "output is out of range"),
            (11, "output to non-writable"),
            (12, "output overlap"),
        ]
        .into_iter()
        .find_map(|(number, text)| Some((number, self.report.find(text)?)));
        let (number, (message, note)) = found.expect("a known refusal");
        let node = message.span.unwrap().node;

        let place = if number == 12 {
            let (position, size) = self.defs.told.placed[note.unwrap().span.unwrap().node].unwrap();
            format!("{} {}", position.unwrap(), size)
        } else {
            node.to_string()
        };
        let said = format!("refused {} {} passes {}", number, place, self.defs.told.passes);

        // An offer is made at the refusing node only where the refusal is the store's.
        self.verdict(said, if number == 12 { node + 1 } else { node }, node, raw)
    }

    fn built(&self, iterations: usize, output: &util::BitVec, raw: bool) -> String {
        let spans = output.spans.iter().map(|span| {
            let offset = span.offset.map_or("-".to_string(), |offset| offset.to_string());
            format!("{}:{}:{}", span.addr.to_i128().unwrap(), offset, span.size)
        });
        let hex = match output.len() {
            0 => "-".to_string(),
            len if len > IMAGE_BITS => "long".to_string(),
            _ => format!("{:x}", output),
        };

        let said = format!(
            "ok {} {} {} {} | spans {} | blocks {}",
            iterations,
            self.defs.told.passes,
            output.len(),
            hex,
            list(spans.collect()),
            blocks(output)
        );

        let nodes = self.defs.told.placed.len();
        let verdict = self.verdict(said, nodes, nodes, raw);
        if output.len() > IMAGE_BITS && verdict.starts_with("ok") && !raw {
            return "nosay 14".to_string();
        }
        verdict
    }

    /// What the Rust said, unless an empty placement was offered or a full store met before: then it has no say. `offered`
    /// is the end of the nodes that made an offer, `accepted` of those whose offer was accepted.
    fn verdict(&self, said: String, offered: usize, accepted: usize, raw: bool) -> String {
        let placed = &self.defs.told.placed;
        let is_empty = |place: &Option<(Option<usize>, usize)>| matches!(place, Some((Some(_), 0)));
        let is_stored = |place: &&Option<(Option<usize>, usize)>| matches!(place, Some((Some(_), size)) if *size > 0);

        if raw {
            said
        } else if placed[..offered].iter().any(is_empty) {
            format!("nosay empty ; {}", said)
        } else if placed[..accepted].iter().filter(is_stored).count() > STORED {
            "nosay 13".to_string()
        } else {
            said
        }
    }
}
