"use strict";
// The page: files come in, panes and lists show them, pointer and keys choose, records are saved.

const $ = (id) => document.getElementById(id);
const LISTED = 800; // rows of the list at once
const panes = ["old", "now"].map((side) => {
    const pane = document.querySelector(".pane." + side);
    return new Pane(pane.querySelector(".scroll"), pane.querySelector(".overview"));
});
const [OLD, NOW] = [0, 1];
const state = { command: null, docs: [null, null], said: [null, null], pairs: [], rows: [], moved: "", isCompared: false, isReady: false, turn: 0, done: 0 };

// ---- words into the document ----

function element(name, className, ...inside) {
    const made = document.createElement(name);
    if (className) made.className = className;
    made.append(...inside.map((one) => (one instanceof Node ? one : String(one))));
    return made;
}

function tell(text, isWrong) {
    $("status").textContent = text;
    $("status").title = text;
    $("status").classList.toggle("wrong", Boolean(isWrong));
}

const rowOf = ([head, ...cells]) => element("tr", "", element("th", "", head), ...cells.map((cell) => element("td", "", cell)));
const tableOf = (rows) => element("table", "", ...rows.map(rowOf));

const isTwo = () => state.said[OLD] !== null;
const shownPanes = () => (isTwo() ? panes : [panes[NOW]]);
const calledOf = (said, node) => nameOf(said, node) || "node " + node;

// ---- files ----

const FORM_MOST = 65537, NAMES_MOST = 4194305; // the command refuses longer ones

async function readDoc(form, names) {
    return { name: form.name, form: new Uint8Array(await form.slice(0, FORM_MOST).arrayBuffer()),
        names: names ? new Uint8Array(await names.slice(0, NAMES_MOST).arrayBuffer()) : null, namesName: names ? names.name : null };
}

const isNames = (file) => /\.names$/i.test(file.name);
const stem = (file) => file.name.replace(/\.[^.]*$/, "");

// Layout files with their names: those of the same name, or of one layout file any.
function sorted(files) {
    const forms = files.filter((file) => !isNames(file)), names = files.filter(isNames);
    forms.sort((a, b) => a.lastModified - b.lastModified);
    return forms.map((form) => [form, names.find((one) => stem(one) === stem(form)) || (forms.length === 1 ? names[0] : undefined)]);
}

async function open(list) {
    const files = [...list], pairs = sorted(files);
    if (pairs.length > 2) return tell("Drop one layout file, or two to see what moved.", true);
    if (pairs.length === 0) return openNames(files[0]);
    const docs = await Promise.all(pairs.map((pair) => readDoc(...pair)));
    return show(docs.length === 2 ? docs : [null, docs[0]]);
}

async function openNames(file) {
    if (!file) return undefined;
    if (!state.docs[NOW]) return tell("Names alone show nothing: drop the layout file too.", true);
    const names = new Uint8Array(await file.slice(0, NAMES_MOST).arrayBuffer());
    return show([state.docs[OLD], { ...state.docs[NOW], names, namesName: file.name }]);
}

async function openAgainst(list) {
    const pairs = sorted([...list]);
    if (pairs.length !== 1) return tell("Choose one layout file to compare with.", true);
    return show([state.docs[NOW], await readDoc(...pairs[0])]);
}

const unbase = (text) => Uint8Array.from(atob(text), (c) => c.charCodeAt(0));

function openExample(name) {
    return show([null, { name: name + ".form", form: unbase(EXAMPLES[name]), names: null, namesName: null }]);
}

// What denkumari map --html has put into the page, if anything.
function openGiven() {
    const given = JSON.parse($("given").textContent), text = (base) => new TextDecoder().decode(unbase(base));
    if (!given) return undefined;
    $("fill").value = given.fill;
    $("page").value = given.page;
    $("room").value = given.room || "";
    const name = text(given.name), names = given.names ? unbase(given.names) : null;
    return show([null, { name, form: unbase(given.form), names, namesName: names ? name + ".names" : null }]);
}

// ---- showing ----

// A comparison has no page size and no room.
const choicesOf = (docs) => ({ fill: $("fill").value, page: docs[OLD] ? "" : $("page").value.trim(), room: docs[OLD] ? "" : $("room").value.trim() });

// Studies and shows one layout, or two. One that is asked for later takes the place of one that is not done.
async function show(docs) {
    const turn = ++state.turn;
    const chosen = choicesOf(docs), said = [docs[OLD] && (await study(state.command, docs[OLD], chosen)), await study(state.command, docs[NOW], chosen)];
    const found = docs[OLD] && !said[NOW].isFailed ? await compared(state.command, ...said) : { status: 0, said: "", pairs: [] };
    if (turn !== state.turn) return;
    Object.assign(state, { docs, said, pairs: found.pairs, moved: found.said, isCompared: found.status < 2 });
    document.body.classList.toggle("two", isTwo());
    $("drop").hidden = true;
    document.title = docs[NOW].name + " – Denkumari";
    showSaid();
    showPanes();
    list();
    choose(NOW, said[NOW].clash.length ? said[NOW].clash[0] : NONE);
    tell(said[NOW].isFailed ? said[NOW].words : "", said[NOW].isFailed);
    state.done = turn;
}

function showPanes() {
    const changes = [new Map(), new Map()];
    for (const pair of state.pairs.filter((one) => one.changes.length)) {
        if (pair.old !== NONE) changes[OLD].set(pair.old, pair.changes);
        if (pair.now !== NONE) changes[NOW].set(pair.now, pair.changes);
    }
    panes.forEach((pane, side) => {
        if (state.said[side] === null) return pane.clear();
        pane.host.parentNode.querySelector("h2").textContent = (side === OLD ? "old: " : "new: ") + state.docs[side].name;
        return pane.show(state.said[side], changes[side]);
    });
    if (isTwo()) panes.forEach((pane) => pane.zoomTo(Math.max(...panes.map((one) => one.zoom)), 0));
    const isGood = state.said[NOW].image !== null && state.said[NOW].refusal === null;
    for (const id of ["hex", "srec"]) $(id).disabled = !isGood;
    $("text").disabled = state.said[NOW].isBroken;
    $("print").disabled = $("against").disabled = false;
    $("swap").disabled = $("single").disabled = !isTwo();
    $("page").disabled = $("room").disabled = isTwo();
}

// A link to a node, of the new layout.
function linkTo(said, side, node) {
    const link = element("a", "", calledOf(said, node));
    link.href = "#";
    link.addEventListener("click", (event) => {
        event.preventDefault();
        choose(side, node);
    });
    return link;
}

function headOf(said) {
    const { form, banks, count, rows, limit } = said;
    const counts = ["form " + form, several(banks.length, "bank"), several(count, "node"), several(rows, "row"), "pass limit " + limit];
    return [element("b", "", said.doc.name), (said.isBroken || said.isFailed ? "" : ": " + counts.join(", ")) + ". "];
}

// Accepted, or the refusal in the command's words with links to both nodes.
function verdictOf(said, side) {
    if (said.isFailed) return [element("strong", "", "Nothing was laid out"), ": " + said.words + " "];
    if (said.refusal === null) {
        const runs = said.passes === 1 ? "1 pass" : said.passes + " passes", image = several(said.length, "bit") + ", " + several(said.image.length, "byte");
        return [element("strong", "", "Accepted"), `, ${runs} run: image of ${image}, ${several(said.blocks.length, "block")}. `];
    }
    const words = [element("strong", "", "Refused " + said.refusal.join(" ")), ": " + said.words + " "];
    if (said.clash[0] !== undefined && panes[side]) words.push("At fault: ", linkTo(said, side, said.clash[0]));
    if (said.clash[1] !== undefined) words.push("; stands there: ", linkTo(said, side, said.clash[1]));
    return words;
}

function showSaid() {
    const lines = [OLD, NOW].filter((side) => state.said[side]).map((side) => {
        const said = state.said[side];
        return element("div", "", ...headOf(said), ...verdictOf(said, side), ...said.told.map((text) => element("em", "", text)));
    });
    if (isTwo()) lines.unshift(element("div", "", ...comparedWords()));
    $("said").replaceChildren(...lines);
    $("said").className = state.said.some((said) => said && (said.refusal || said.isFailed)) ? "refused" : "accepted";
    $("said").scrollTop = 0;
}

function comparedWords() {
    const isRefused = state.said.some((said) => said.refusal !== null);
    if (!state.isCompared) return [element("strong", "", "Not compared"), ": " + (isRefused ? "a layout is refused" : state.moved) + "."];
    const [first, ...rest] = state.moved.trimEnd().split("\n"), banks = rest.filter((line) => /^(bank|passes|blocks|image| {2}\d| {2}bytes)/.test(line));
    const words = first.slice(first.lastIndexOf(": ") + 2);
    return [element("strong", "", words), ". " + banks.map((line) => line.trim()).join("; ").slice(0, 600)];
}

// ---- the list, and the chosen node ----

// The rows of the list: nodes, or of two layouts the pairs that changed.
function rowsOf(asked) {
    const [old, now] = state.said;
    if (!isTwo() || !state.isCompared) return search(now, asked).map((n) => ({ old: NONE, now: n.node, changes: [] }));
    if (asked.trim() === "") return state.pairs.filter((pair) => pair.changes.length);
    const inOld = new Set(search(old, asked).map((n) => n.node)), inNow = new Set(search(now, asked).map((n) => n.node));
    return state.pairs.filter((pair) => inOld.has(pair.old) || inNow.has(pair.now));
}

function rowElement(row, at) {
    const side = row.now === NONE ? OLD : NOW, said = state.said[side], n = panes[side].node(side === OLD ? row.old : row.now);
    const words = row.changes.length ? row.changes.join(", ") : kindOf(n);
    const address = (n.address < 0 ? n.address : hex(n.address)) + (n.past ? "+" + n.past : "");
    const cells = [[n.node], [nameOf(said, n.node), " ", element("small", "", words)], [n.bank], [address], [isPlaced(n.kind) ? n.size : ""]];
    const made = element("div", "row", ...cells.map((cell) => element("span", "", ...cell)));
    made.classList.toggle("clash", !isTwo() && said.clash.includes(n.node));
    made.setAttribute("role", "option");
    made.id = "row" + at;
    made.title = [nameOf(said, n.node), placeOf(said, n.node), words].filter((word) => word).join(", ");
    made.addEventListener("click", () => choose(side, n.node, true));
    return made;
}

function list() {
    const asked = $("search").value, isAsked = asked.trim() !== "";
    state.rows = state.said[NOW] && !state.said[NOW].isFailed ? rowsOf(asked) : [];
    const more = state.rows.length - LISTED, what = isAsked ? " found" : isTwo() && state.isCompared ? " changed" : " nodes";
    $("count").textContent = state.rows.length + what;
    const last = more > 0 ? [element("div", "row head", "", `and ${more} more: search`)] : [];
    $("list").replaceChildren(...state.rows.slice(0, LISTED).map(rowElement), ...last);
    markRow(false);
}

function chosenRow() {
    const [old, now] = panes.map((pane) => pane.chosen);
    return now !== NONE ? state.rows.findIndex((row) => row.now === now) : old !== NONE ? state.rows.findIndex((row) => row.old === old) : -1;
}

function markRow(isShown) {
    const at = chosenRow();
    [...$("list").children].forEach((row, i) => {
        row.classList.toggle("on", i === at);
        row.setAttribute("aria-selected", String(i === at));
    });
    if (at >= 0 && at < LISTED) $("list").setAttribute("aria-activedescendant", "row" + at);
    if (at >= 0 && at < LISTED && isShown) $("row" + at).scrollIntoView({ block: "nearest" });
}

// Chooses a node of one side, and its pair on the other.
function choose(side, node, isFromList) {
    const pair = state.pairs.find((one) => (side === OLD ? one.old : one.now) === node && node !== NONE);
    panes[side].choose(node);
    if (isTwo()) panes[1 - side].choose(pair ? (side === OLD ? pair.now : pair.old) : NONE);
    showFacts();
    markRow(!isFromList);
}

function showFacts() {
    const found = panes.map((pane, side) => (state.said[side] && pane.chosen !== NONE ? factsOf(state.said[side], pane.node(pane.chosen)) : null));
    const rows = found[OLD] && found[NOW] ? bothFacts(...found) : found[NOW] || found[OLD] || [];
    const hint = element("p", "dim", "Point at the picture, or choose a node: click, arrow keys, search (/). + and - zoom, 0 shows everything.");
    $("facts").replaceChildren(rows.length ? tableOf(rows) : hint);
    for (const row of $("facts").querySelectorAll("tr"))
        if (row.children.length === 3 && row.children[1].textContent !== row.children[2].textContent && row.rowIndex > 0) row.classList.add("differs");
}

// The facts of a pair, old and new beside each other.
function bothFacts(old, now) {
    const heads = [...new Set([...old, ...now].map(([head]) => head))], of = (rows, head) => (rows.find((row) => row[0] === head) || ["", ""])[1];
    return [["", element("b", "", "old"), element("b", "", "new")], ...heads.map((head) => [head, of(old, head), of(now, head)])];
}

// The next node of the list, or the one before.
function step(by) {
    const at = chosenRow(), last = state.rows.length - 1;
    chooseRow(state.rows[at < 0 ? (by > 0 ? 0 : last) : Math.min(last, Math.max(0, at + by))]);
}

function chooseRow(row) {
    if (row) choose(row.now === NONE ? OLD : NOW, row.now === NONE ? row.old : row.now);
}

// ---- the pointer ----

function tipOf(said, { bank, bit, points, areas }) {
    const nodes = [...areas.filter((area) => area.what !== "padding"), ...points].map((one) => factsOf(said, said.nodes.find((n) => n.node === one.node)));
    const skips = areas.filter((area) => area.what === "padding").map((area) => paddingFacts(said, bank, area));
    const all = [...nodes, ...skips];
    return all.length ? all.slice(0, 4) : [gapFacts(said, bank, bit)];
}

function pointAt(side, event) {
    const pane = panes[side], found = pane.said && pane.under(event.offsetX, event.offsetY + pane.host.scrollTop), tip = $("tip");
    tip.hidden = !found;
    if (!found) return;
    tip.replaceChildren(...tipOf(state.said[side], found).flatMap((rows, i) => [...(i ? [element("hr", "")] : []), tableOf(rows)]));
    tip.style.left = Math.max(4, Math.min(event.clientX + 14, innerWidth - tip.offsetWidth - 8)) + "px";
    const below = event.clientY + 18;
    tip.style.top = Math.max(4, below + tip.offsetHeight > innerHeight ? event.clientY - tip.offsetHeight - 10 : below) + "px";
}

function clickAt(side, event) {
    const pane = panes[side], found = pane.said && pane.under(event.offsetX, event.offsetY + pane.host.scrollTop);
    const best = found ? [found.areas.find((area) => area.isFault), found.points[0], found.areas.find((area) => area.what !== "padding"), found.areas[0]] : [];
    const one = best.find((found) => found);
    if (one) choose(side, one.node);
}

function zoom(by, side, y) {
    $("tip").hidden = true;
    if (side !== undefined) panes[side].zoomTo(panes[side].zoom * by, y);
    for (const pane of shownPanes()) if (pane.said && pane !== panes[side]) pane.zoomTo(pane.zoom * by);
}

// ---- saving ----

function saveAs(name, bytes) {
    const link = element("a", "");
    link.href = URL.createObjectURL(new Blob([bytes], { type: "text/plain" }));
    link.download = name;
    link.hidden = true;
    document.body.append(link);
    link.click();
    setTimeout(() => {
        URL.revokeObjectURL(link.href);
        link.remove();
    }, 10000);
    tell(`${name}: ${several(bytes.length, "byte")} saved.`);
}

// One of the command's answers about the layout, as a file; what it refuses is said in its words.
async function save(words, ending) {
    const doc = state.docs[NOW], name = formName(doc), said = state.said[NOW], files = new Map([[name, doc.form]]);
    const names = said.names.size > 0 && words[0] === "map" ? ["--names", doc.namesName] : [];
    if (names.length) files.set(doc.namesName, doc.names);
    const found = await state.command.run([...words, ...choiceWords(said.choices), ...roomWords(said.choices), ...names, "--", name], files);
    const isRefused = found.status > 1 || (found.status === 1 && words[0] !== "map");
    if (isRefused) return tell("Not saved: " + saidOf(found.err).join(" ").replace("--whole", "“whole image”"), true);
    return saveAs(doc.name.replace(/\.form$/i, "") + ending, found.out);
}

const recordWords = () => ["--load", $("load").value.trim() || "0", ...($("whole").checked ? ["--whole"] : [])];

// ---- paper ----

function printOut(isOn) {
    $("prints").replaceChildren();
    if (!isOn || !state.said[NOW]) return;
    for (const pane of shownPanes()) {
        if (isTwo()) $("prints").append(element("h2", "", pane.host.parentNode.querySelector("h2").textContent));
        pane.prints($("prints"), pane.host.clientWidth, isTwo() ? 420 : 620);
    }
}

// ---- keys and buttons ----

const fitAll = () => shownPanes().forEach((pane) => pane.fit());
const KEYS = { "+": () => zoom(0.5), "=": () => zoom(0.5), "-": () => zoom(2), 0: fitAll, "/": () => $("search").focus(),
    Escape: () => state.said[NOW] && choose(NOW, NONE) };
const STEPS = { ArrowRight: 1, ArrowDown: 1, ArrowLeft: -1, ArrowUp: -1 };

function key(event) {
    const isTyped = /^(INPUT|SELECT)$/.test(event.target.tagName) && event.target.type !== "checkbox", isList = event.target === $("list");
    const isPane = event.target.classList.contains("scroll"), by = STEPS[event.key];
    if (event.ctrlKey || event.metaKey || event.altKey || !state.said[NOW]) return;
    if (!isTyped && by && (isList || (isPane && /Left|Right/.test(event.key)))) step(by);
    else if (!isTyped && KEYS[event.key]) KEYS[event.key]();
    else return;
    event.preventDefault();
}

function searched(event) {
    if (!state.said[NOW]) return;
    if (event.type === "input") {
        list();
        if ($("search").value.trim()) chooseRow(state.rows[0]);
    } else if (event.key === "Enter") step(event.shiftKey ? -1 : 1);
}

function listenToPane(pane, side) {
    pane.host.addEventListener("scroll", () => {
        $("tip").hidden = true;
        pane.draw();
    });
    pane.canvas.addEventListener("mousemove", (event) => pointAt(side, event));
    pane.canvas.addEventListener("mouseleave", () => {
        $("tip").hidden = true;
    });
    pane.canvas.addEventListener("click", (event) => clickAt(side, event));
    pane.host.addEventListener("wheel", (event) => {
        if (!event.ctrlKey) return;
        event.preventDefault();
        zoom(event.deltaY < 0 ? 0.5 : 2, side, event.clientY - pane.host.getBoundingClientRect().top);
    }, { passive: false });
    pane.overview.addEventListener("click", (event) => pane.jump(event.offsetX / pane.overview.clientWidth));
}

// A fault of the page itself is not kept from people.
const held = (what) => (...words) => Promise.resolve(what(...words)).catch((fault) => tell("The page failed: " + (fault.message || fault), true));

function listenToFiles() {
    for (const [button, input, take] of [["open", "files", open], ["against", "other", openAgainst]]) {
        $(button).addEventListener("click", () => $(input).click());
        $(input).addEventListener("change", async () => {
            const files = [...$(input).files];
            $(input).value = "";
            await held(take)(files);
        });
    }
    addEventListener("dragover", (event) => {
        event.preventDefault();
        document.body.classList.add("over");
    });
    addEventListener("dragleave", () => document.body.classList.remove("over"));
    addEventListener("drop", (event) => {
        event.preventDefault();
        document.body.classList.remove("over");
        held(open)(event.dataTransfer.files);
    });
    $("example").addEventListener("change", () => {
        const name = $("example").value;
        $("example").value = "";
        if (name) held(openExample)(name);
    });
}

function listenToButtons() {
    const again = () => state.docs[NOW] && held(show)(state.docs);
    const does = { in: () => zoom(0.5), out: () => zoom(2), fit: fitAll, print: () => window.print(),
        swap: () => held(show)([state.docs[NOW], state.docs[OLD]]), single: () => held(show)([null, state.docs[NOW]]),
        hex: () => held(save)(["ihex", ...recordWords()], ".hex"), srec: () => held(save)(["srec", ...recordWords()], ".srec"),
        text: () => held(save)(["map"], ".map.txt") };
    for (const id in does) $(id).addEventListener("click", does[id]);
    for (const id of ["fill", "page", "room"]) $(id).addEventListener("change", again);
    $("search").addEventListener("input", searched);
    $("search").addEventListener("keydown", searched);
    addEventListener("keydown", key);
    addEventListener("resize", () => shownPanes().forEach((pane) => {
        pane.arrange();
        pane.draw();
    }));
    addEventListener("beforeprint", () => printOut(true));
    addEventListener("afterprint", () => printOut(false));
}

async function start() {
    state.command = await Command.load(unbase($("wasm").textContent));
    const help = await state.command.run(["map", "--help"], new Map());
    $("roomed").hidden = !textOf(help.out).includes("--room");
    for (const name in EXAMPLES) $("example").add(new Option(name + ".form", name));
    panes.forEach(listenToPane);
    listenToFiles();
    listenToButtons();
    showFacts();
    await openGiven();
    state.isReady = true;
}

start().catch((fault) => tell("The page could not start: " + (fault.message || fault), true));
