"use strict";
// The command in the page, and a layout as the picture shows it. No document is touched here, so that node runs it too. Every answer is the command's; what is
// reckoned here (where padding stands, what is used and free) is held against the proved map's own sums.

const NONE = -1;
const [NOTHING, SWITCH, LABEL, CONSTANT, INSTRUCTION, DATA, OPEN, RESERVE, ALIGN, ADDR, ASSERT] = Array(11).keys();
const isWritten = (kind) => kind >= INSTRUCTION && kind <= OPEN;
const isPlaced = (kind) => kind >= INSTRUCTION && kind <= RESERVE;
const isSymbol = (kind) => kind === LABEL || kind === CONSTANT;

// ---- the command ----

// Ends a command at once, as exit does.
class Exit {
    constructor(status) {
        this.status = status;
    }
}

// The command denkumari, compiled to WebAssembly: run(words, files) is one command line, with the files that it finds. Each begins with fresh memory.
class Command {
    constructor(module) {
        this.module = module;
        this.instance = null;
    }

    static async load(binary) {
        return new Command(await WebAssembly.compile(binary));
    }

    async start() {
        const bytes = (at, n) => new Uint8Array(this.memory.buffer, at, n);
        const page = {
            open: (at, n) => this.open(new TextDecoder().decode(bytes(at, n))),
            read: (from, at, n) => this.read(this.opened[from], at, n),
            write: (to, at, n) => this.written[to].push(bytes(at, n).slice()),
            exit: (status) => {
                throw new Exit(status);
            },
        };
        this.instance = await WebAssembly.instantiate(this.module, { page });
        this.memory = this.instance.exports.memory;
        const all = new Uint8Array(this.memory.buffer);
        let end = all.length;
        while (end > 0 && all[end - 1] === 0) end--;
        this.fresh = all.slice(0, end);
    }

    open(name) {
        if (!this.files.has(name)) return -1;
        this.opened.push({ bytes: this.files.get(name), at: 0 });
        return this.opened.length - 1;
    }

    read(file, at, n) {
        const part = file.bytes.subarray(file.at, file.at + n);
        new Uint8Array(this.memory.buffer, at, n).set(part);
        file.at += part.length;
        return part.length;
    }

    call(words) {
        const text = new TextEncoder().encode(words.join("\0") + "\0");
        if (text.length > 8192) throw new Error("the names are too long");
        const all = new Uint8Array(this.memory.buffer);
        all.fill(0);
        all.set(this.fresh);
        all.set(text, this.instance.exports.words());
        try {
            return this.instance.exports.run(words.length);
        } catch (fault) {
            this.instance = null; // its stack is not unwound
            if (fault instanceof Exit) return fault.status;
            throw fault;
        }
    }

    async run(words, files) {
        if (!this.instance) await this.start();
        this.files = files;
        this.opened = [];
        this.written = [[], [], []];
        const status = this.call(["denkumari", ...words]);
        return { status, out: joined(this.written[1]), err: new TextDecoder().decode(joined(this.written[2])) };
    }
}

function joined(parts) {
    const whole = new Uint8Array(parts.reduce((sum, part) => sum + part.length, 0));
    let at = 0;
    for (const part of parts) {
        whole.set(part, at);
        at += part.length;
    }
    return whole;
}

const textOf = (bytes) => new TextDecoder("latin1").decode(bytes);
// What the command says on standard error, without its own name ahead.
const saidOf = (err) => err.split("\n").filter((line) => line).map((line) => line.replace(/^denkumari \w+: /, ""));

// ---- words for numbers ----

const several = (count, what) => count + " " + what + (count === 1 ? "" : "s");
const hex = (v) => (v < 0 ? "-" : "") + "0x" + Math.abs(v).toString(16);
const both = (v) => (v < 10 ? String(v) : v + " = " + hex(v));
const range = (from, size) => (size > 0 ? from + ".." + (from + size - 1) : String(from));
const byteAt = (at, edge) => Math.floor(at / 8) + (at % 8 === edge ? "" : "." + (at % 8));
function byteRange(from, size) {
    const first = byteAt(from, 0), last = size > 0 ? byteAt(from + size - 1, 7) : first;
    return first === last ? first : first + ".." + last;
}

// ---- a layout file and its names ----

// A field of a sound layout file (docs/FORMAT.md): what the map does not say of nodes and rows.
function takeField(file, tag, bytes, at, size) {
    const view = new DataView(bytes.buffer, bytes.byteOffset);
    if (tag === 2) file.operands.push(view.getUint32(at + 1));
    else if (tag === 3) file.rows.push(Array.from({ length: size / 5 }, (_, i) => view.getUint32(at + 5 * i)));
    else if (tag === 4) file.values = bytes.subarray(at, at + size);
}

function readFields(bytes) {
    const file = { operands: [], rows: [], values: bytes.subarray(0, 0) };
    for (let at = 0; at < bytes.length;) {
        const size = 256 * bytes[at + 1] + bytes[at + 2];
        takeField(file, bytes[at], bytes, at + 3, size);
        at += 3 + size;
    }
    return file;
}

// The names of a names file that the command has taken.
function readNames(bytes) {
    const names = new Map();
    for (const line of new TextDecoder().decode(bytes).split("\n")) {
        const [node, name, place] = line.replace(/\r$/, "").split("\t");
        if (place !== undefined && node !== "form") names.set(Number(node), { name, place });
    }
    return names;
}

// ---- what the command says of a layout ----

const numberOf = (word) => (word === "-" ? NONE : Number(word));

function takeBank(said, words) {
    const [unit, start, size, offset, align, fill, bit, padding, units] = words.slice(2).map(numberOf);
    said.banks.push({ no: said.banks.length, unit: Math.max(unit, 1), start, startText: words[3], size, offset, align, ones: bit === 1, fill: fill === 1,
        isFilled: fill === 1 && size !== NONE && offset !== NONE, padding, units, areas: [], points: [] });
}

function takeNode(said, words) {
    const [node, kind, bank, from, address, output, size] = words.slice(1).map(numberOf);
    said.nodes.push({ node, kind, bank, from, address, output, size });
}

// The proved map, a record a line (denkumari map --lines).
function takeLine(said, line) {
    const words = line.split(" "), [first] = words;
    if (first === "file") [said.form, said.limit, said.rows, said.passes, said.count] = words.slice(1).map(Number);
    else if (first === "bank") takeBank(said, words);
    else if (first === "node") takeNode(said, words);
    else if (first === "fault") said.fault = Number(words[1]);
    else if (first === "refused") said.refusal = words.slice(1).map(Number);
}

function readMap(text) {
    const said = { form: 0, limit: 0, rows: 0, passes: 0, count: 0, banks: [], nodes: [], fault: NONE, refusal: null, blocks: [], image: null, length: 0 };
    for (const line of text.split("\n")) takeLine(said, line);
    return said;
}

// The proved layout: blocks and image, or the refusal.
function takeLayout(said, text) {
    for (const line of text.split("\n")) {
        const words = line.split(" ");
        if (words[0] === "block") said.blocks.push({ from: Number(words[1]), size: Number(words[2]) });
        else if (words[0] === "image") said.image = bytesOf(words[1] || "");
        else if (words[0] === "refused") said.refusal = words.slice(1).map(Number);
    }
}

// An image that is larger than what layout lends, where more room was asked for: its bytes by ihex --whole, its blocks by the map.
async function takeLarger(command, said, name) {
    const chosen = [...choiceWords(said.choices), ...roomWords(said.choices), "--", name], files = new Map([[name, said.doc.form]]);
    const records = await command.run(["ihex", "--whole", ...chosen], files), map = textOf((await command.run(["map", ...chosen], files)).out);
    const [, table] = /\nblock  .*\n([^]*?)\n\n/.exec(map) || ["", ""], rows = table.split("\n").filter((row) => row).map((row) => row.trim().split(/\s+/));
    said.refusal = null;
    said.image = imageOf(textOf(records.out));
    said.blocks = rows.map((row) => ({ from: parseInt(row[1], 10), size: Number(row.at(-1)) }));
}

// The bytes of Intel HEX that has every one from address 0 on.
function imageOf(text) {
    const parts = [];
    for (const line of text.split("\n")) {
        const record = bytesOf(line.slice(1).trim());
        if (record.length > 4 && record[3] === 0) parts.push(record.subarray(4, 4 + record[0]));
    }
    return joined(parts);
}

const bytesOf = (digits) => Uint8Array.from({ length: Math.ceil(digits.length / 2) }, (_, i) => parseInt((digits + "0").slice(2 * i, 2 * i + 2), 16));

// ---- what is drawn of it ----

// The distance to an alignment, with every product exact.
function distance(bank, from, alignment) {
    if (alignment === 0) return 0;
    const whole = BigInt(alignment), rest = (((BigInt(bank.startText) * BigInt(bank.unit) + BigInt(from)) % whole) + whole) % whole;
    return rest === 0n ? 0 : Number(whole - rest);
}

function putPadding(bank, from, size, node) {
    if (size === 0) return;
    bank.areas.push({ what: "padding", from, to: from + size, node });
    bank.skipped += size;
    bank.skippedUnits += Math.floor(size / bank.unit);
}

function putNode(said, bank, n) {
    const isFault = n.node === said.fault;
    if (isPlaced(n.kind) && n.size > 0) {
        const what = n.kind === INSTRUCTION ? "instruction" : n.kind === RESERVE ? "reserve" : "data";
        bank.areas.push({ what, from: n.from, to: n.from + n.size, node: n.node, isFault });
    } else if (isPlaced(n.kind)) bank.points.push({ what: "mark", at: n.from, node: n.node, isFault });
    else if (isSymbol(n.kind)) bank.points.push({ what: KINDS[n.kind], at: n.from, node: n.node, isFault });
}

// Where each bank stands after each node. Only a symbol may be found past that, by its label alignment; false where that is not so.
function walk(said, row) {
    let isRight = true;
    for (const bank of said.banks) bank.at = bank.skipped = bank.skippedUnits = 0;
    for (const n of said.nodes) {
        const bank = said.banks[n.bank], before = n.from - bank.at;
        if (before !== 0 && !isSymbol(n.kind)) isRight = false;
        putPadding(bank, bank.at, before, n.node);
        const skip = n.kind === ALIGN ? distance(bank, n.from, row[n.node]) : 0;
        putPadding(bank, n.from, skip, n.node);
        putNode(said, bank, n);
        bank.at = n.kind === ADDR ? row[n.node] : n.from + skip + (isPlaced(n.kind) ? n.size : 0);
        n.past = n.from % bank.unit;
        n.padding = before + skip;
    }
    return isRight;
}

// The bits that areas take, each once, below a limit.
function taken(areas, limit) {
    let reached = 0, sum = 0;
    for (const area of areas) {
        const from = Math.max(area.from, reached), to = Math.min(area.to, limit);
        sum += Math.max(0, to - from);
        reached = Math.max(reached, to);
    }
    return sum;
}

// A bank's sums; false where its padding is not the proved map's.
function sumUp(bank, isOutside) {
    bank.areas.sort((a, b) => a.from - b.from || a.node - b.node);
    bank.points.sort((a, b) => a.at - b.at || a.node - b.node);
    const stands = bank.areas.filter((area) => !area.isFault);
    bank.used = taken(stands.filter((area) => area.what !== "padding"), Infinity);
    bank.free = bank.size === NONE ? NONE : bank.size - taken(stands, bank.size);
    bank.extent = Math.max(bank.size, 0, ...bank.areas.map((area) => area.to), ...bank.points.map((point) => point.at));
    return isOutside || (bank.skipped === bank.padding && bank.skippedUnits === bank.units);
}

// The image's length in bits: the fill's, by the choice, or the furthest end of a written item.
function imageBits(said, isFull) {
    const ends = said.nodes.filter((n) => isWritten(n.kind) && n.node !== said.fault && n.output !== NONE).map((n) => n.output + n.size);
    let bits = 0;
    for (const bank of said.banks) {
        const end = bank.isFilled ? bank.offset + bank.size : 0;
        if (end > 0 && bits < end - (isFull ? 0 : 1)) bits = end;
    }
    return Math.max(bits, ...ends);
}

// The node at fault, and the one that stands where it would.
function clashOf(said) {
    if (said.fault === NONE || !said.refusal) return [];
    const [number, from, size] = said.refusal;
    const other = said.nodes.find((n) => number === 12 && n.node < said.fault && isPlaced(n.kind) && n.output === from && n.size === size);
    return other ? [said.fault, other.node] : [said.fault];
}

function choiceWords(choices) {
    return [...(choices.fill ? ["--fill", choices.fill] : []), ...(choices.page ? ["--page", choices.page] : [])];
}

// Commands that take a room for the image, where the command has that choice.
const roomWords = (choices) => (choices.room ? ["--room", choices.room] : []);

// The name that the command knows a file by; it says it in its words.
const formName = (doc) => (doc.name === "" || doc.name === "-" ? "layout.form" : doc.name);

// The map of a layout with its names, or without where they are none or another file's: what the command says of them goes into `told`.
async function mapped(command, doc, choices, files, told) {
    const words = ["map", "--lines", ...choiceWords(choices), ...roomWords(choices)], name = formName(doc);
    if (doc.names) {
        const found = await command.run([...words, "--names", doc.namesName, "--", name], files);
        if (found.status < 2) return { found, names: readNames(doc.names) };
        const bare = await command.run([...words, "--", name], new Map([[name, doc.form]]));
        if (bare.status < 2) told.push("The names are left out: " + saidOf(found.err).join("; "));
        return { found: bare, names: new Map() };
    }
    return { found: await command.run([...words, "--", name], new Map([[name, doc.form]])), names: new Map() };
}

// Everything that is shown of a layout file: { name, form, names, namesName } with the choices of fill and page.
async function study(command, doc, choices) {
    const name = formName(doc), files = new Map([[name, doc.form], [doc.namesName || "", doc.names || new Uint8Array(0)]]), told = [];
    const { found, names } = await mapped(command, doc, choices, files, told);
    const said = readMap(textOf(found.out));
    Object.assign(said, { doc, choices, names, told, words: saidOf(found.err).join(" "), isFailed: found.status > 1, clash: [], isBroken: said.form === 0 });
    if (said.isFailed) return said;
    takeLayout(said, textOf((await command.run(["layout", ...choiceWords(choices), "--", name], new Map([[name, doc.form]]))).out));
    if (said.isBroken) return said;
    if (found.status === 0 && said.refusal !== null) await takeLarger(command, said, name);
    const file = readFields(doc.form), row = file.rows[Math.min(Math.max(said.passes, 1), file.rows.length) - 1] || [];
    Object.assign(said, { operands: file.operands, values: file.values });
    const isRight = walk(said, row), isSummed = said.banks.map((bank) => sumUp(bank, bank.no > 15)).every((is) => is);
    said.length = imageBits(said, choices.fill === "full");
    if (said.image && said.image.length !== Math.ceil(said.length / 8)) said.told.push("The length of the image is not what this page reckons.");
    if (!isRight || !isSummed) said.told.push("The padding is not what this page reckons.");
    said.clash = clashOf(said);
    return said;
}

// ---- two layouts ----

// The files of two layouts, as the command is to know them: names that were taken go with them.
function bothFiles(sides) {
    const files = new Map(), forms = [], names = [];
    for (const [folder, said] of sides) {
        const { doc } = said;
        forms.push(folder + "/" + formName(doc));
        names.push(folder + "/" + (said.names.size > 0 ? doc.namesName : "none.names"));
        files.set(forms.at(-1), doc.form).set(names.at(-1), said.names.size > 0 ? doc.names : new Uint8Array(0));
    }
    return { files, words: ["--names", ...names, "--", ...forms] };
}

// What moved between two layouts, as the command says it, and the pairs of nodes with what changed.
async function compared(command, old, now) {
    const { files, words } = bothFiles([["old", old], ["new", now]]), fill = now.choices.fill ? ["--fill", now.choices.fill] : [];
    const answer = await command.run(["compare", ...fill, ...words], files);
    if (answer.status > 1) return { status: 2, said: saidOf(answer.err).join(" "), pairs: [] };
    const pairs = textOf((await command.run(["pairs", ...fill, ...words], files)).out).split("\n").filter((line) => line);
    return { status: answer.status, said: new TextDecoder().decode(answer.out), pairs: pairs.map(pairOf) };
}

function pairOf(line) {
    const [, old, now, changes] = /^(\S+) (\S+) (.*)$/.exec(line);
    return { old: numberOf(old), now: numberOf(now), changes: changes ? changes.split(", ") : [] };
}

// ---- search ----

const ADDRESS = /^(?:(\d+):)?(-?(?:0x[0-9a-f]+|\d+))$/;

// Whether a node stands on an address of its bank, or begins there.
function standsOn(said, n, address, bankNo) {
    const bank = said.banks[n.bank], from = (address - bank.start) * bank.unit;
    if (n.kind < LABEL || n.kind > RESERVE || (bankNo !== undefined && Number(bankNo) !== n.bank)) return false;
    return n.size > 0 ? n.from < from + bank.unit && from < n.from + n.size : n.from >= from && n.from < from + bank.unit;
}

// Nodes by name, place or kind; by address, 0x820, or in one bank, 2:0x820; by number, #7.
function search(said, asked) {
    const text = asked.trim().toLowerCase(), byNumber = /^#(\d+)$/.exec(text), byAddress = ADDRESS.exec(text);
    const listed = said.nodes.filter((n) => n.kind >= LABEL && n.kind <= ADDR);
    if (text === "") return listed;
    if (byNumber) return said.nodes.filter((n) => n.node === Number(byNumber[1]));
    const isNamed = (n) => [nameOf(said, n.node), placeOf(said, n.node), kindOf(n)].some((word) => word.toLowerCase().includes(text));
    if (!byAddress) return listed.filter(isNamed);
    const [, bank, spelled] = byAddress, address = spelled.startsWith("-") ? -Number(spelled.slice(1)) : Number(spelled);
    const there = listed.filter((n) => standsOn(said, n, address, bank));
    return [...there, ...listed.filter((n) => !there.includes(n) && isNamed(n))];
}

const nameOf = (said, node) => (said.names.get(node) || { name: "" }).name;
const placeOf = (said, node) => (said.names.get(node) || { place: "" }).place;
const kindOf = (n) => (isPlaced(n.kind) && n.size === 0 ? KINDS[n.kind] + ", a mark" : KINDS[n.kind]);

// ---- what is said of a place ----

function addressWords(bank, from) {
    const past = from % bank.unit;
    return both(bank.start + Math.floor(from / bank.unit)) + (past ? " and " + several(past, "bit") : "");
}

function addressRange(bank, from, size) {
    const first = bank.start + Math.floor(from / bank.unit), last = bank.start + Math.floor((from + Math.max(size, 1) - 1) / bank.unit);
    if (first === last) return addressWords(bank, from);
    const past = from % bank.unit ? "+" + (from % bank.unit) : "", end = (from + size) % bank.unit;
    return `${first}${past}..${last}` + (first < 0 ? "" : ` = ${hex(first)}..${hex(last)}`) + (end ? `, ends ${several(end, "bit")} into the last` : "");
}

// The bits of an item, in hex; where they are no whole digits in binary too.
function valueOf(said, n) {
    if (!isWritten(n.kind) || n.size === 0) return "";
    const shown = Math.min(n.size, 256), at = said.operands[n.node];
    const bits = Array.from({ length: shown }, (_, i) => (said.values[(at + i) >> 3] >> (7 - ((at + i) % 8))) & 1).join("");
    const digits = BigInt("0b" + bits).toString(16).padStart(Math.ceil(shown / 4), "0");
    return (shown % 4 && shown <= 40 ? bits + " = " : "") + "0x" + digits + (n.size > shown ? " .." : "");
}

// What is said of a node, in rows.
function factsOf(said, n) {
    const bank = said.banks[n.bank], size = isPlaced(n.kind) ? n.size : 0;
    const rows = [["node", n.node], ["name", nameOf(said, n.node)], ["source", placeOf(said, n.node)], ["kind", kindOf(n)], ["bank", n.bank],
        ["address", addressRange(bank, n.from, size)], ["position", range(n.from, size) + " in the bank"],
        ["size", isPlaced(n.kind) ? several(size, "bit") : ""],
        ["image bits", n.output === NONE ? "not in the image" : range(n.output, size)], ["bytes", n.output === NONE ? "" : byteRange(n.output, size)],
        ["value", valueOf(said, n)], ["padding", n.padding ? several(n.padding, "bit") : ""]];
    if (said.clash[0] === n.node) rows.unshift(["", "at fault"]);
    if (said.clash[1] === n.node) rows.unshift(["", "stands there already"]);
    return rows.filter(([, value]) => value !== "");
}

// What nothing stands on: from where to where, filled or free.
function gapAt(said, bank, bit) {
    let from = 0, to = bank.size;
    for (const area of bank.areas) {
        if (area.to <= bit) from = Math.max(from, area.to);
        if (area.from > bit) to = Math.min(to, area.from);
    }
    const reached = bank.isFilled ? filledTo(said, bank) : 0, isFill = bit < reached;
    return isFill ? { from, to: Math.min(to, reached), isFill } : { from: Math.max(from, reached), to, isFill };
}

// How far a bank's fill goes, in bits of the bank: as far as the image does; of a refused layout to its end.
function filledTo(said, bank) {
    return said.image ? Math.min(bank.size, Math.max(0, said.length - bank.offset)) : bank.size;
}

function gapFacts(said, bank, bit) {
    const gap = gapAt(said, bank, bit), size = gap.to - gap.from;
    return [[gap.isFill ? "fill" : "free", several(size, "bit") + (gap.isFill ? (bank.ones ? " of ones" : " of zeros") : "")], ["bank", bank.no],
        ["address", addressRange(bank, gap.from, size)], ["image bits", bank.offset === NONE ? "not in the image" : range(bank.offset + gap.from, size)],
        ["here", "address " + addressWords(bank, bit)]];
}

function paddingFacts(said, bank, area) {
    const n = said.nodes.find((one) => one.node === area.node), size = area.to - area.from, name = nameOf(said, area.node);
    return [["padding", several(size, "bit")], ["for", KINDS[n.kind] + " " + (name || "node " + area.node)], ["bank", bank.no],
        ["address", addressRange(bank, area.from, size)], ["image bits", bank.offset === NONE ? "not in the image" : range(bank.offset + area.from, size)]];
}
