"use strict";
// The page in Chromium: node test_browser.js CHROMIUM CHECKOUT NATIVE ROOM [PICTURES]. Files are dropped on it, found, compared, saved and printed, by pointer
// and by keys; what it says is held against the native command. Prints how many checks were made; status 1 where one failed.
const child = require("child_process");
const fs = require("fs");
const path = require("path");
const { Browser } = require("./browser.js");

const [program, root, native, room, pictures] = process.argv.slice(2);
const EXAMPLES = path.join(root, "examples"), PAGE = "file://" + path.join(root, "web", "denkumari.html");
const example = (name) => path.join(EXAMPLES, name + ".form");
let checks = 0, wrong = 0;

function same(what, is, should) {
    checks++;
    if (JSON.stringify(is) === JSON.stringify(should)) return;
    wrong++;
    console.log(`different: ${what}\n  is      ${JSON.stringify(is).slice(0, 400)}\n  should  ${JSON.stringify(should).slice(0, 400)}`);
}

const tool = (...words) => child.spawnSync(native, words, { encoding: "utf8" });
const saidBy = (browser) => browser.ask(`$("said").textContent`);
const picture = (browser, name) => (pictures ? browser.picture(path.join(pictures, name + ".png")) : undefined);
// where the page's parts stand: nothing may move while people point, search and choose
const places = (browser) => browser.ask(`JSON.stringify([...document.querySelectorAll("#bar, #said, #legend, #panes, .scroll, #side, #facts, #list, #status")]
    .map((one) => Object.values(one.getBoundingClientRect().toJSON()).map(Math.round)))`);
// a place of the picture: some bits into a node of a pane
const spot = (browser, side, node, bits) => browser.ask(`(() => {
    const pane = panes[${side}], n = pane.node(${node}), one = pane.sections.find((s) => s.bank.no === n.bank);
    const at = pane.lineAt(one, Math.floor((n.from + ${bits}) / one.bits)), r = pane.canvas.getBoundingClientRect();
    return [r.x + at.x(n.from + ${bits}), r.y + at.y + one.box * 0.7 - pane.host.scrollTop]; })()`);
// how much of a colour the picture of a pane has
const coloured = (browser, side, rgb) => browser.ask(`(() => {
    const c = panes[${side}].canvas, d = c.getContext("2d").getImageData(0, 0, c.width, c.height).data;
    let n = 0;
    for (let i = 0; i < d.length; i += 4) n += d[i] === ${rgb[0]} && d[i + 1] === ${rgb[1]} && d[i + 2] === ${rgb[2]}; return n; })()`);

async function save(browser, button, name) {
    await browser.click("#" + button);
    return browser.saved(name);
}

// Every example, dropped as a file: the verdict, and its records and its map as they are saved.
async function examples(browser) {
    const names = fs.readdirSync(EXAMPLES).filter((file) => file.endsWith(".form")).map((file) => file.slice(0, -5));
    for (const [at, name] of names.entries()) {
        if (at % 3 === 0) await browser.open(PAGE); // Chromium asks before it saves more than ten files of one page
        await browser.drop(example(name));
        const said = await saidBy(browser), layout = tool("layout", example(name)), head = /Refused ([\d ]+):/.exec(said);
        same(`${name}: verdict`, head ? `refused ${head[1]}\n` : "", layout.status ? layout.stdout : "");
        if (layout.status) same(`${name}: words`, said.includes(layout.stderr.trim().replace(/^denkumari layout: /, "")), true);
        else await records(browser, name);
        same(`${name}: map`, await save(browser, "text", name + ".map.txt"), tool("map", example(name)).stdout);
    }
}

async function records(browser, name) {
    for (const [button, command] of [["hex", "ihex"], ["srec", "srec"]]) {
        const should = tool(command, example(name), "--load", "0x0");
        if (should.status === 0) same(`${name}: ${command}`, await save(browser, button, name + "." + button), should.stdout);
        else {
            await browser.click("#" + button);
            await browser.until(`$("status").textContent.startsWith("Not saved: refused with 16")`);
        }
    }
}

// March's mistake: both nodes marked, and the links lead to them.
async function refusal(browser) {
    await browser.drop(example("clamp-mark-after"));
    await picture(browser, "clamp");
    same("the nodes of the refusal", await browser.ask("state.said[NOW].clash"), [7, 2]);
    same("its links", await browser.ask(`[...$("said").querySelectorAll("a")].map((one) => one.textContent)`), ["node 7", "node 2"]);
    const fault = await coloured(browser, 1, [184, 0, 0]), hit = await coloured(browser, 1, [106, 27, 154]);
    same("both are marked in the picture", [fault > 2000, hit > 500], [true, true]);
    await browser.click("#said a:last-of-type");
    same("a link chooses its node", await browser.ask("panes[NOW].chosen"), 2);
    same("nothing to save", await browser.ask(`[$("hex").disabled, $("srec").disabled, $("text").disabled]`), [true, true, false]);
    await browser.drop(example("past-the-end"));
    await picture(browser, "past-the-end");
    await browser.drop(path.join(root, "README.md"));
    same("a file that is none", /Refused 4 0.*The file may have been cut/.test(await saidBy(browser)), true);
}

// Names beside the layout, the pointer, search and keys; nothing jumps.
async function names(browser) {
    const file = path.join(room, "sequencer.names"), sum = child.execSync(`cksum '${example("sequencer")}'`).toString().split(" ");
    fs.writeFileSync(file, `form\t${sum[0]}\t${sum[1]}\n` + Array.from({ length: 404 }, (_, i) => `${i}\tsym_${i}\tseq.asm:${i + 1}\n`).join(""));
    await browser.drop(example("sequencer"), file);
    const before = await places(browser);
    await browser.move(...(await spot(browser, 1, 24, 8)));
    const tip = await browser.ask(`$("tip").innerText`);
    const parts = ["sym_24", "seq.asm:25", "instruction", "16..17 = 0x10..0x11", "160..179", "20..22.3", "20 bits", "0x10400"];
    same("hover", parts.filter((part) => !tip.includes(part)), []);
    await picture(browser, "sequencer");
    for (const [text, node] of [["sym_381", 381], ["0x800", 379], ["2:2048", 379], ["#12", 12], ["1:0x12", 25]]) {
        await browser.type("#search", text);
        same("search " + text, await browser.ask("panes[NOW].chosen"), node);
    }
    await keys(browser);
    same("nothing jumped", await places(browser), before);
    fs.writeFileSync(file, `form\t1\t${sum[1]}\n1\told\told.asm:1\n`);
    await browser.drop(example("sequencer"), file);
    const isTold = /The names are left out: sequencer.names does not belong to sequencer.form: cksum 1 /.test(await saidBy(browser));
    same("stale names are told and not used", [isTold, await browser.ask("state.said[NOW].names.size")], [true, 0]);
}

async function keys(browser) {
    await browser.type("#search", "");
    await browser.ask(`document.querySelector(".pane.now .scroll").focus()`);
    await browser.press("Escape");
    same("Escape", await browser.ask("panes[NOW].chosen"), -1);
    const zoom = await browser.ask("panes[NOW].zoom");
    await browser.press("ArrowRight");
    await browser.press("ArrowRight");
    same("arrows in the picture", await browser.ask("panes[NOW].chosen"), 2);
    await browser.press("+", "+");
    same("+ zooms", await browser.ask("panes[NOW].zoom"), zoom / 2);
    await browser.press("0", "0");
    await browser.ask(`$("list").focus()`);
    await browser.press("ArrowDown");
    same("arrows in the list", await browser.ask(`[panes[NOW].chosen, document.querySelector(".row.on").textContent.includes("sym_3")]`), [3, true]);
    await browser.press("/", "/");
    same("/ goes to the search", await browser.ask("document.activeElement.id"), "search");
    await browser.ask(`panes[NOW].zoomTo(80); choose(NOW, 24)`);
    await picture(browser, "bits");
    await browser.ask("panes[NOW].fit()");
}

// Fill and page size as choices.
async function choose(browser) {
    const answer = async (id, value) => {
        const turn = await browser.ask("state.turn");
        await browser.ask(`$("${id}").value = "${value}"; $("${id}").dispatchEvent(new Event("change"))`);
        await browser.until(`state.turn > ${turn} && state.done === state.turn`);
        return saidBy(browser);
    };
    await browser.drop(example("lock"));
    const [image] = /image of \d+ bits?/.exec(tool("map", "--fill", "full", example("lock")).stdout);
    same("full fill", (await answer("fill", "full")).includes(image), true);
    await answer("fill", "");
    await browser.drop(example("paged-offset"));
    const words = tool("layout", "--page", "256", example("paged-offset")).stderr.trim().replace("denkumari layout: ", "");
    same("a page size", [words.length > 20, (await answer("page", "256")).includes(words)], [true, true]);
    same("a page size that is none", (await answer("page", "x")).includes("takes a number"), true);
    await answer("page", "");
}

// Two files side by side.
async function two(browser) {
    await browser.drop(example("paged"), example("paged-offset"));
    await browser.ask(`state.docs[OLD].name === "paged.form" ? null : $("swap").click()`);
    await browser.until(`state.docs[OLD].name === "paged.form" && state.done === state.turn`);
    const words = tool("compare", example("paged"), example("paged-offset")).stdout.split("\n")[0].split(": ").pop();
    same("what moved", (await saidBy(browser)).startsWith(words), true);
    const row = await browser.ask(`state.rows.findIndex((one) => one.old !== NONE && one.now !== NONE)`);
    await browser.click("#row" + row);
    same("both sides choose", await browser.ask(`[panes[OLD].chosen, panes[NOW].chosen].every((node) => node !== NONE)`), true);
    same("old and new", await browser.ask(`$("facts").innerText.includes("old") && $("facts").querySelectorAll("tr.differs").length > 0`), true);
    same("moved is drawn", (await coloured(browser, 1, [11, 79, 158])) > 50, true);
    await picture(browser, "two");
    await browser.click("#single");
    await browser.until("!isTwo() && state.done === state.turn");
    await browser.drop(example("banks"), example("clamp-mark-after"));
    same("one that is refused is not compared", /^Not compared: a layout is refused/.test(await saidBy(browser)), true);
    await picture(browser, "refused-two");
}

// The page that map --html writes, with layout, names and choices in it; then paper.
async function given(browser) {
    const form = path.join(room, "given <b>&.form"), out = path.join(room, "given.html"), names = path.join(room, "given.names");
    fs.copyFileSync(example("sequencer"), form);
    fs.writeFileSync(names, "24\t<script>alert(1)</script>\tödp.asm:3\n");
    const words = ["--html", "--fill", "full", "--room", "20000", "--names", names, "-o", out, form];
    const made = child.spawnSync(path.join(root, "tools", "map"), words, { encoding: "utf8" });
    same("map --html", [made.status, made.stdout, made.stderr], [0, "", ""]);
    await browser.open("file://" + out);
    same("what it shows", await browser.ask("[state.docs[NOW].name, state.said[NOW].choices.fill, state.said[NOW].choices.room, nameOf(state.said[NOW], 24)]"),
        ["given <b>&.form", "full", "20000", "<script>alert(1)</script>"]);
    const pdf = Buffer.from((await browser.send("Page.printToPDF", { preferCSSPageSize: true, printBackground: true })).data, "base64");
    same("it prints", [pdf.subarray(0, 5).toString(), pdf.length > 40000], ["%PDF-", true]);
    if (pictures) fs.writeFileSync(path.join(pictures, "print.pdf"), pdf);
    await browser.open(PAGE);
    const turn = await browser.ask("state.turn");
    await browser.ask(`$("example").value = "banks"; $("example").dispatchEvent(new Event("change"))`);
    await browser.until(`state.done > ${turn}`);
    same("an example of the page", (await saidBy(browser)).startsWith("banks.form"), true);
    await picture(browser, "banks");
}

// Random and damaged files, one or two of them: whatever is shown, nothing fails.
async function many(browser) {
    const folder = path.join(room, "files"), files = fs.existsSync(folder) ? fs.readdirSync(folder).filter((_, i) => i % 16 === 0) : [];
    const doc = (name) => `{ name: "${name}", form: unbase("${fs.readFileSync(path.join(folder, name)).toString("base64")}"), names: null, namesName: null }`;
    let bad = 0;
    for (const [i, name] of files.entries()) {
        const docs = i % 3 ? `[null, ${doc(name)}]` : `[${doc(files[Math.max(0, i - 1)])}, ${doc(name)}]`;
        const told = await browser.ask(`show(${docs}).then(() => { step(1); zoom(0.25); zoom(4); printOut(true); printOut(false);
            return [...state.said[NOW].told, $("status").textContent, $("said").textContent ? "" : "nothing is said"].join(""); })`);
        if (told) console.log(`${name}: ${told}`);
        bad += told ? 1 : 0;
    }
    same(`${files.length} random files`, bad, 0);
}

async function main() {
    const browser = new Browser(program, room);
    let status = 0;
    try {
        await browser.open(PAGE);
        await picture(browser, "empty");
        for (const test of [examples, refusal, names, choose, two, given, many]) await test(browser);
        same("requests", browser.requests.filter((one) => !/^(file:\/\/|blob:|data:)/.test(one)), []);
        same("faults and what the policy forbids", browser.errors, []);
        await browser.ask(`fetch("file:///etc/hostname").then(() => "fetched", () => "forbidden")`).then((is) => same("the policy", is, "forbidden"));
    } catch (fault) {
        console.log(fault.stack || fault);
        status = 1;
    }
    await browser.close();
    console.log(`the page in Chromium: ${checks} checks, ${wrong} different`);
    process.exit(wrong ? 1 : status);
}

main();
