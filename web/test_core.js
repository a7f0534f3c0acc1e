"use strict";
// What the page says beside the command as it is compiled for this machine: node test_core.js PAGE NATIVE FOLDER. For every layout file of the folder, with
// choices by turns, the page's command has to give the same bytes, words and status as the native one, and what the page reckons itself has to be what the
// map's table says. Prints how many checks were made; status 1 where one failed.
const child = require("child_process");
const fs = require("fs");
const path = require("path");
const vm = require("vm");

const [page, native, folder] = process.argv.slice(2);
const FILLS = ["", "full", "inherited"], PAGES = ["8", "64", "256", "7", "0x400"];
let checks = 0, wrong = 0;

function same(what, is, should) {
    checks++;
    if (JSON.stringify(is) === JSON.stringify(should)) return;
    wrong++;
    if (wrong < 20) console.log(`different: ${what}\n  is      ${JSON.stringify(is).slice(0, 400)}\n  should  ${JSON.stringify(should).slice(0, 400)}`);
}

// The page's own scripts, as the page has them.
function core() {
    const html = fs.readFileSync(page, "utf8"), scripts = [...html.matchAll(/<script>([^]*?)<\/script>/g)].map((found) => found[1]);
    const names = "{ Command, study, compared, search, textOf, saidOf, factsOf, gapFacts, choiceWords, KINDS }";
    vm.runInThisContext(scripts[0] + scripts[1] + `\nglobalThis.core = ${names};`);
    return { ...globalThis.core, wasm: Buffer.from(/id="wasm">([^<]*)</.exec(html)[1], "base64") };
}

// What the native command says to many command lines, in the folder, so that both know the files by the same names. One shell starts all, which is quick.
function nativeSays(calls) {
    const quoted = (word) => "'" + word.replace(/'/g, "'\\''") + "'", said = path.join(folder, "said");
    fs.rmSync(said, { recursive: true, force: true });
    fs.mkdirSync(said);
    const lines = calls.map((words, i) => `"$0" ${words.map(quoted).join(" ")} >said/${i}.out 2>said/${i}.err; echo $? >said/${i}.status\n`);
    fs.writeFileSync(path.join(said, "calls"), lines.join(""));
    const { status } = child.spawnSync("sh", ["-c", ". ./said/calls", native], { cwd: folder });
    if (status !== 0) throw new Error("the native command was not run");
    const read = (i, what) => fs.readFileSync(path.join(said, i + what));
    return calls.map((_, i) => ({ status: Number(read(i, ".status")), out: read(i, ".out").toString("latin1"), err: read(i, ".err").toString() }));
}

async function pageSays(command, words, files) {
    const { status, out, err } = await command.run(words, files);
    return { status, out: globalThis.core.textOf(out), err };
}

// What the map's table says of the banks: used, padding, in units, free.
function figuresOf(text) {
    const lines = text.split("\n"), from = lines.findIndex((line) => line.startsWith("bank  "));
    const rows = from < 0 ? [] : lines.slice(from + 1, lines.indexOf("", from));
    return rows.slice(0, 16).map((row) => row.trim().split(/\s+/).slice(-5, -1));
}

const figures = (bank) => [bank.used, bank.skipped, bank.skippedUnits, bank.free].map((n) => (n === -1 ? "-" : String(n)));
const reckoned = (said) => said.banks.slice(0, 16).map(figures);

// One layout file with one choice: the calls that are made of it.
function askedOf(name, at) {
    const choices = { fill: FILLS[at % 3], page: at % 7 ? "" : PAGES[at % 5] }, chosen = globalThis.core.choiceWords(choices);
    const load = String((at * 7919) % 5000);
    const records = at % 2 ? ["ihex", "--load", load] : ["srec", "--width", at % 4 ? "4" : "2", "--load", load];
    const calls = at % 3 ? [["map"], ["layout"]] : [["map"], ["layout"], records, ["ihex", "--whole"]];
    return { name, choices, calls: calls.map((call) => [...call, ...chosen, "--", name]) };
}

// Every answer of the page, then its own view of the layout.
async function one(command, { name, choices, calls }, should) {
    const form = new Uint8Array(fs.readFileSync(path.join(folder, name))), files = new Map([[name, form]]), { study } = globalThis.core;
    for (const [i, words] of calls.entries()) same(words.join(" "), await pageSays(command, words, files), should[i]);
    const said = await study(command, { name, form, names: null, namesName: null }, choices), [map, layout] = should;
    same(`${name}: what the page reckons`, said.told, []);
    same(`${name}: words`, said.words, globalThis.core.saidOf(map.err).join(" "));
    same(`${name}: verdict`, said.refusal ? "refused " + said.refusal.join(" ") : "", layout.status === 1 ? layout.out.trim() : "");
    same(`${name}: figures`, reckoned(said), figuresOf(map.out));
    if (layout.status === 0) same(`${name}: length`, `image of ${said.length} bit`, (/^image of \d+ bit/m.exec(map.out) || [])[0]);
    if (said.clash.length > 1) same(`${name}: both nodes`, said.words.includes(`: node ${said.clash[1]} (`), true);
    return said;
}

const compareWords = ([old, now]) => ["compare", ...(now.choices.fill ? ["--fill", now.choices.fill] : []), "--", old.doc.name, now.doc.name];

// Two layouts: the command's words, and pairs that sum up to them.
async function two(command, [old, now], should) {
    const found = await globalThis.core.compared(command, old, now), counts = {};
    same(`${old.doc.name} ${now.doc.name}: status`, found.status, should.status);
    if (found.status > 1) return;
    same(`${old.doc.name} ${now.doc.name}: words`, found.said, Buffer.from(should.out, "latin1").toString());
    for (const change of found.pairs.flatMap((pair) => (pair.changes.length ? pair.changes : ["the same"]))) counts[change] = (counts[change] || 0) + 1;
    const words = found.said.split("\n")[0].split(": ").pop(), summed = words === "no nodes" ? [] : words.split(", ").sort();
    same(`${old.doc.name} ${now.doc.name}: pairs`, Object.entries(counts).map(([change, count]) => `${count} ${change}`).sort(), summed);
}

// An image beyond what layout lends, where the command can be asked for more room.
async function larger(command) {
    const [help] = nativeSays([["map", "--help"]]), name = "larger.form", form = new Uint8Array(fs.readFileSync(path.join(folder, "example-banks.form")));
    if (!help.out.includes("--room")) return;
    form.set([0, 3, 0, 0], 26 + 3 + 14); // bank 1's offset: behind bank 0, its own head and 14 bytes
    fs.writeFileSync(path.join(folder, name), form);
    const said = await globalThis.core.study(command, { name, form, names: null, namesName: null }, { fill: "", page: "", room: "65536" });
    const [map, small] = nativeSays([["map", "--room", "65536", name], ["map", name]]);
    same("a larger room", [map.status, small.status, said.refusal, said.told], [0, 1, null, []]);
    same("a larger image", [`image of ${said.length} bits, ${said.image.length} bytes`], [/^image of .*/m.exec(map.out)[0]]);
    same("its blocks", said.blocks.length, map.out.split("\nblock ")[1].split("\n\n")[0].split("\n").length - 1);
    fs.rmSync(path.join(folder, name));
}

// Names: taken, another layout file's, damaged, none at all.
async function names(command) {
    const { study, search } = globalThis.core, name = "example-banks.form", form = new Uint8Array(fs.readFileSync(path.join(folder, name)));
    const good = "1\treset\tmain.asm:4\n12\tclamp_curve\tcurves.asm:3\n";
    const [sum, size] = child.execSync(`cksum '${name}'`, { cwd: folder }).toString().split(" ");
    const of = async (text) => study(command, { name, form, names: new TextEncoder().encode(text), namesName: "x.names" }, { fill: "", page: "" });
    const with_ = await of(`form\t${sum}\t${size}\r\n${good}`), plain = await of(good);
    same("names that belong to the file", [with_.told, with_.names.size, with_.names.get(12).place], [[], 2, "curves.asm:3"]);
    same("names without a sum", [plain.told, plain.names.get(1).name], [[], "reset"]);
    const stale = await of(`form\t1\t${size}\n${good}`), bad = await of("1\treset\n");
    const left = "The names are left out: x.names ", line = "line 1 is not a number, a name and a place with tabs between";
    const belongs = `does not belong to ${name}: cksum 1 ${size}, and ${name} has ${sum} ${size}`;
    same("names of another file", [stale.names.size, stale.told], [0, [left + belongs]]);
    same("names that are none", [bad.names.size, bad.told], [0, [`${left}is not a names file: ${line}`]]);
    const nodes = (asked) => search(with_, asked).map((n) => n.node);
    same("search", [nodes("CLAMP"), nodes("main.asm"), nodes("0x100"), nodes("2:16384"), nodes("-8"), nodes("#7"), nodes("constant"), nodes("nothing such")],
        [[12], [1], [1, 2], [11, 12], [16, 17], [7], [4], []]);
}

async function main() {
    const { Command, wasm } = core(), command = await Command.load(wasm), files = fs.readdirSync(folder).filter((file) => file.endsWith(".form")).sort();
    const seen = {}, said = [], asked = files.map(askedOf), answers = nativeSays(asked.flatMap(({ calls }) => calls));
    for (const each of asked) said.push(await one(command, each, answers.splice(0, each.calls.length)));
    for (const { refusal } of said) seen[refusal ? refusal[0] : 0] = (seen[refusal ? refusal[0] : 0] || 0) + 1;
    const good = said.filter((one) => one.image && one.choices.page === "");
    const pairs = good.slice(1).map((now, i) => [good[i], { ...now, choices: good[i].choices }]).filter((_, i) => i % 3 === 0);
    const moved = nativeSays(pairs.map(compareWords));
    for (const [i, pair] of pairs.entries()) await two(command, pair, moved[i]);
    await names(command);
    await larger(command);
    for (const words of [["nix"], ["map", "--help"], ["--version"], ["map"]])
        same(words.join(" "), await pageSays(command, words, new Map()), nativeSays([words])[0]);
    const kinds = Object.entries(seen).map(([number, count]) => `${number}: ${count}`).join(", ");
    console.log(`the page beside the command: ${files.length} layout files, ${checks} checks, ${wrong} different (accepted and refusals: ${kinds})`);
    process.exit(wrong ? 1 : 0);
}

main().catch((fault) => {
    console.log(fault.stack || fault);
    process.exit(1);
});
