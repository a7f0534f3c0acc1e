//! The bridge, compiled into customasm's own crate, on the judge's own trees, held against customasm's own answer and against the library's for the same file.
//!
//! Reads files from standard input, each behind four bytes of length, big-endian, and prints a tally; with --lines the bridge's line for each file instead
//! (oracle/README.md, "The lines"). Status 1 where an answer differs.

use customasm::asm::bridge;
use customasm::{asm, diagn, util};
use denkumari::{get_blocks, hex, layout_form, Fill, Refusal, Spans, NO_OFFSET};
use std::collections::BTreeMap;
use std::io::Read;
use std::panic::{catch_unwind, AssertUnwindSafe};

#[allow(dead_code)]
#[path = "../judge/main.rs"]
mod judge;

const IMAGE: usize = 16_384;
/// Behind a line: customasm stopped by itself in a pass.
const STOPPED: &str = " stopped";

fn main() {
    let lines = std::env::args().any(|word| word == "--lines");
    std::panic::set_hook(Box::new(|_| {}));
    let mut input = Vec::new();
    std::io::stdin().read_to_end(&mut input).expect("standard input can be read");
    let mut rest = &input[..];
    let mut tally = Tally::default();
    while !rest.is_empty() {
        let file = judge::take(&mut rest);
        let bridged = |varied| {
            catch_unwind(AssertUnwindSafe(|| bridged(file, varied)))
                .unwrap_or_else(|_| Some(("panic".to_string(), None)))
        };
        if lines {
            let line = bridged(false).map_or("none".to_string(), |(line, _)| line);
            println!("{}", line.strip_suffix(STOPPED).unwrap_or(&line));
        } else {
            let rust =
                catch_unwind(AssertUnwindSafe(|| judge::answer(file, false))).unwrap_or_else(|_| "panic".to_string());
            let (plain, varied) = (bridged(false), bridged(true));
            tally.count("the same from a tree of another shape".to_string(), plain == varied);
            if rust.starts_with("refused 12") {
                let (mine, theirs) = (plain.as_ref().and_then(|(_, nodes)| *nodes), customasms_overlap(file));
                let same = mine.is_some() && mine == theirs;
                tally.count("the nodes of an overlap: refused, and in the way".to_string(), same);
            }
            tally.take(file, &rust, plain.map(|(line, _)| line), &direct(file));
        }
    }
    if !lines && !tally.show() {
        std::process::exit(1);
    }
}

/// The same layout as a tree of another shape, which the judge never makes: neighbouring data in one directive of several elements, every other switch as the
/// definition of its bank, and between nodes directives that lay nothing out.
fn another_shape(ast: asm::AstTopLevel) -> asm::AstTopLevel {
    let mut nodes = Vec::new();
    for (i, any) in ast.nodes.into_iter().enumerate() {
        match (nodes.last_mut(), any) {
            (Some(asm::AstAny::DirectiveData(before)), asm::AstAny::DirectiveData(data)) => {
                before.item_refs.extend(data.item_refs);
                before.elems.extend(data.elems);
            }
            (_, asm::AstAny::DirectiveBank(at)) if i % 2 == 0 => {
                nodes.push(asm::AstAny::DirectiveBankdef(asm::AstDirectiveBankdef {
                    item_ref: at.item_ref,
                    header_span: at.header_span,
                    addr_unit: None,
                    label_align: None,
                    addr_start: None,
                    addr_size: None,
                    addr_end: None,
                    output_offset: None,
                    fill: false,
                    userdata: None,
                }))
            }
            (_, any @ asm::AstAny::Symbol(_)) => {
                nodes.extend([asm::AstAny::DirectiveOnce(()), any, asm::AstAny::DirectiveRuledef(())])
            }
            (_, any) => nodes.push(any),
        }
    }
    asm::AstTopLevel { nodes }
}

/// The node that a message of an overlap stands at, and that of its note.
fn overlap(report: &diagn::Report, beginning: &str) -> Option<(usize, Option<usize>)> {
    let (message, note) = report.find(beginning)?;
    Some((message.span?.node, note.and_then(|note| note.span).map(|span| span.node)))
}

/// The same of customasm's own stages.
fn customasms_overlap(bytes: &[u8]) -> Option<(usize, Option<usize>)> {
    let file = judge::form::read(bytes)?;
    let mut case = judge::Case::new(&file, false);
    let ast = case.tree(&file, false);
    let (opts, mut files) = (asm::AssemblyOptions::new(), util::FileServerMock::new());
    asm::resolver::resolve_iteratively(
        &mut case.report,
        &opts,
        &mut files,
        &ast,
        &case.decls,
        &mut case.defs,
        file.limit,
    )
    .ok()?;
    asm::output::build_output(&mut case.report, &ast, &case.decls, &case.defs).err()?;
    overlap(&case.report, "output overlap")
}

/// The bridge's line; nothing for a file that is no tree: a broken one, or one whose banks or nodes are malformed. And the nodes of an overlap.
fn bridged(bytes: &[u8], varied: bool) -> Option<(String, Option<(usize, Option<usize>)>)> {
    let file = judge::form::read(bytes)?;
    let sound = (1..=16).contains(&file.banks.len())
        && file.banks.iter().all(|bank| bank.unit != 0 && bank.is_within_limits() && !bank.is_empty_fill())
        && file.is_within_counts()
        && file.has_sound_lists();
    if !sound {
        return None;
    }
    let mut case = judge::Case::new(&file, false);
    let ast = case.tree(&file, false);
    let ast = if varied { another_shape(ast) } else { ast };
    let (opts, mut files) = (asm::AssemblyOptions::new(), util::FileServerMock::new());
    let answer = bridge::resolve_and_build(
        &mut case.report,
        &opts,
        &mut files,
        &ast,
        &case.decls,
        &mut case.defs,
        file.limit,
        IMAGE,
    );
    let line = match answer {
        Ok(done) => built(&done),
        Err(bridge::Stopped::Refused(fault, at)) => refused(fault.refusal, at.map(|span| span.node as u64)),
        Err(bridge::Stopped::Reported(Some((fault, at)))) => {
            format!("{}{STOPPED}", refused(fault.refusal, at.map(|span| span.node as u64)))
        }
        Err(bridge::Stopped::Reported(None)) => STOPPED.to_string(),
        Err(bridge::Stopped::Limits(misuse)) => format!("stopped {misuse}"),
        Err(bridge::Stopped::Apart(theirs, mine)) => format!("apart {theirs:?} {mine:?}"),
    };
    Some((line, overlap(&case.report, "refused 12")))
}

fn built(done: &bridge::Assembled) -> String {
    let output = &done.output;
    let spans = output.spans.iter().map(|span| {
        let offset = span.offset.map_or("-".to_string(), |offset| offset.to_string());
        format!("{}:{}:{}", span.addr.to_i128().unwrap(), offset, span.size)
    });
    let hex = if output.len() == 0 { "-".to_string() } else { format!("{output:x}") };
    let (spans, blocks) = (judge::list(spans.collect()), judge::blocks(output));
    format!("ok {} {} {} {hex} | spans {spans} | blocks {blocks}", done.iterations, done.passes, output.len())
}

fn refused(why: Refusal, at: Option<u64>) -> String {
    let (place, passes) = match why {
        Refusal::BankCount => ("0".to_string(), None),
        Refusal::BankNumber { bank } => (bank.to_string(), None),
        Refusal::BanksOverlap { first, second } => (format!("{first} {second}"), None),
        Refusal::Malformed { place } => (place.to_string(), None),
        Refusal::Overlap { start, size, passes } => (format!("{start} {size}"), Some(passes)),
        Refusal::Unresolved { passes } => ("0".to_string(), Some(passes)),
        Refusal::TooShort { buffer, passes } => ((buffer as u8).to_string(), Some(passes)),
        Refusal::PositionPast { node, passes }
        | Refusal::LabelOffBoundary { node, passes }
        | Refusal::DefaultBank { node, passes }
        | Refusal::PastBank { node, passes }
        | Refusal::NoOutput { node, passes }
        | Refusal::StoreFull { node, passes } => (at.unwrap_or(node).to_string(), Some(passes)),
        other => (format!("{other:?}"), None),
    };
    let passes = passes.map_or(String::new(), |run| format!(" passes {run}"));
    format!("refused {} {place}{passes}", why.number())
}

/// The library's line for the file itself.
fn direct(file: &[u8]) -> String {
    let most = 4096;
    let (mut image, mut addresses, mut offsets, mut sizes) =
        (vec![0; IMAGE], vec![0; most], vec![0; most], vec![0; most]);
    let spans = Spans { addresses: &mut addresses, offsets: &mut offsets, sizes: &mut sizes };
    let layout = match layout_form(file, Fill::Inherited, None, &mut image, spans) {
        Ok(layout) => layout,
        Err(why) => return refused(why, None),
    };
    let n = layout.spans;
    let (mut starts, mut lengths, mut digits) = (vec![0; most], vec![0; most], vec![0; 2 * IMAGE]);
    let count = get_blocks(&offsets[..n], &sizes[..n], &mut starts, &mut lengths).expect("spans of a layout");
    let digits = hex(&image, layout.length, &mut digits).expect("an image that was lent");
    let offset = |word: u64| if word == NO_OFFSET { "-".to_string() } else { word.to_string() };
    let spans = (0..n).map(|i| format!("{}:{}:{}", addresses[i], offset(offsets[i]), sizes[i])).collect();
    let blocks = (0..count).map(|i| format!("{}:{}", starts[i], lengths[i])).collect();
    let (spans, blocks) = (judge::list(spans), judge::list(blocks));
    let digits = if digits.is_empty() { "-" } else { digits };
    format!("ok {} {} {} {digits} | spans {spans} | blocks {blocks}", layout.k, layout.passes, layout.length)
}

#[derive(Default)]
struct Tally {
    rows: BTreeMap<String, (u64, u64)>,
    first: Option<String>,
}

fn head(line: &str) -> String {
    let words = if line.starts_with("ok") { 1 } else { 2 };
    line.split(' ').take(words).collect::<Vec<_>>().join(" ")
}

impl Tally {
    fn count(&mut self, row: String, same: bool) {
        let row = self.rows.entry(row).or_default();
        *(if same { &mut row.0 } else { &mut row.1 }) += 1;
    }

    fn take(&mut self, file: &[u8], rust: &str, bridged: Option<String>, direct: &str) {
        let Some(bridged) = bridged else {
            return self.count("no tree: the file or its tables are malformed".to_string(), true);
        };
        if bridged.starts_with("stopped there are 4,096 nodes") {
            return self.count("4,096 nodes and the judge's probe".to_string(), true);
        }
        let mut agrees = true;
        if rust.starts_with("nosay") && bridged.ends_with(STOPPED) {
            return self.count(format!("outside the domain, customasm's own walk stops ({})", head(rust)), true);
        }
        let bridged = bridged.strip_suffix(STOPPED).unwrap_or(&bridged);
        if !rust.starts_with("nosay") {
            agrees &= bridged == rust;
            self.count(format!("customasm: {}", head(rust)), bridged == rust);
        }
        agrees &= bridged == direct;
        self.count(format!("library on the file: {}", head(direct)), bridged == direct);
        if !agrees && self.first.is_none() {
            let hex: String = file.iter().take(400).map(|byte| format!("{byte:02x}")).collect();
            self.first = Some(format!("file {hex}\nRust {rust}\nbridge {bridged}\nlibrary {direct}"));
        }
    }

    fn show(&self) -> bool {
        println!("{:<60}{:>9}{:>11}", "", "same", "different");
        for (row, (same, different)) in &self.rows {
            println!("{row:<60}{same:>9}{different:>11}");
        }
        let all = |beginning: &str| {
            let rows = self.rows.iter().filter(|(row, _)| row.starts_with(beginning));
            rows.fold((0, 0), |(same, different), (_, row)| (same + row.0, different + row.1))
        };
        let (customasm, library, others) = (all("customasm"), all("library"), all("the "));
        println!("{} layouts answered as by customasm, {} otherwise", customasm.0, customasm.1);
        println!("{} layouts answered as by the library on the file, {} otherwise", library.0, library.1);
        if let Some(first) = &self.first {
            println!("first difference:\n{first}");
        }
        customasm.1 + library.1 + others.1 == 0 && customasm.0 > 0
    }
}
