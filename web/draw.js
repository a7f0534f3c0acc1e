"use strict";
// The picture: a pane draws the banks of one layout on lines of equal length, to scale. Only what can be seen is drawn, whatever a bank's size.

const LEFT = 96, RIGHT = 88, HEAD = 48, LANE = 16, GAP = 8;
const MOST_SHEETS = 24; // of paper, for a bank
const BITS_FROM = 7; // pixels to a bit, from which on single bits are shown
const MOST_LINES = 20000; // of a bank: a browser's pages are not endless
const PAINT = { instruction: ["#6f9bd1", "#8cb2dd"], data: ["#efc36a", "#f5d48f"] };
const SANS = "system-ui, 'DejaVu Sans', sans-serif", MONO = "ui-monospace, 'DejaVu Sans Mono', Consolas, monospace";
const FAULT = "#b80000", HIT = "#6a1b9a", CHOSEN = "#ffd400";
// what changed between two layouts: colour, dashes
const CHANGED = { moved: ["#0b4f9e", []], new: ["#17692a", []], gone: ["#a00000", [6, 3]], other: ["#a34a00", [2, 2]] };

const changeOf = (words) => (words.includes("new") ? "new" : words.includes("gone") ? "gone" : words.includes("moved") ? "moved" : "other");

// A pattern of one small square, drawn twice as fine as the screen.
function pattern(g, step, ground, draw) {
    const square = document.createElement("canvas");
    square.width = square.height = 2 * step;
    const pen = square.getContext("2d");
    pen.scale(2, 2);
    pen.fillStyle = ground;
    pen.fillRect(0, 0, step, step);
    draw(pen);
    const made = g.createPattern(square, "repeat");
    made.setTransform(new DOMMatrix().scale(0.5));
    return made;
}

function slash(colour, wide, step, up) {
    return (pen) => {
        pen.strokeStyle = colour;
        pen.lineWidth = wide;
        pen.beginPath();
        for (const x of [-step, 0, step]) {
            pen.moveTo(x, up ? step : 0);
            pen.lineTo(x + step, up ? 0 : step);
        }
        pen.stroke();
    };
}

function pensOf(g) {
    return {
        padding: pattern(g, 5, "#e4e4e4", slash("#4a4a4a", 0.9, 5, true)),
        reserve: pattern(g, 8, "#eef3ea", slash("#6f8560", 1.2, 8, false)),
        fill: pattern(g, 5, "#fafafa", (pen) => {
            pen.fillStyle = "#8a8a8a";
            pen.fillRect(1.9, 1.9, 1.2, 1.2);
        }),
        free: "#ffffff",
    };
}

// The first of a list for which a test that is false, then true, holds.
function firstWhere(list, test) {
    let low = 0, high = list.length;
    while (low < high) {
        const middle = (low + high) >> 1;
        if (test(list[middle])) high = middle;
        else low = middle + 1;
    }
    return low;
}

class Pane {
    constructor(host, overview) {
        this.host = host;
        this.canvas = host.querySelector("canvas");
        this.spacer = host.querySelector(".spacer");
        this.overview = overview;
        this.clear();
    }

    clear() {
        Object.assign(this, { said: null, sections: [], zoom: 1024, chosen: NONE, changes: new Map() });
        this.spacer.style.height = "0";
    }

    show(said, changes) {
        Object.assign(this, { said, changes, chosen: NONE });
        for (const bank of said.banks) reachOf(bank);
        this.host.scrollTop = 0;
        this.fit();
    }

    // ---- where banks and lines stand ----

    // How many bits a bank has on a line: whole addresses.
    lineBits(bank) {
        const least = Math.max(this.zoom, bank.extent / MOST_LINES);
        return bank.unit * Math.max(1, 2 ** Math.ceil(Math.log2(least / bank.unit) - 0.5));
    }

    section(bank, y) {
        const room = Math.max(120, this.host.clientWidth - LEFT - RIGHT), bits = this.lineBits(bank), scale = Math.min(room / bits, 24);
        const isTall = this.said.clash.some((node) => this.node(node) && this.node(node).bank === bank.no);
        const box = scale >= BITS_FROM ? 40 : isTall ? 34 : 20, line = LANE + box + GAP, lines = Math.max(1, Math.ceil(bank.extent / bits));
        return { bank, y, bits, scale, box, line, lines, height: HEAD + lines * line + 8 };
    }

    // The banks, one below the other; the height of all.
    arrange() {
        let y = 4;
        this.sections = [];
        for (const bank of this.said ? this.said.banks : []) {
            if (bank.extent === 0 && bank.points.length === 0) continue;
            const next = this.section(bank, y);
            this.sections.push(next);
            y += next.height;
        }
        this.spacer.style.height = y + "px";
        return y;
    }

    // The largest scale at which everything can be seen, or so much as can be told apart.
    fit() {
        const most = Math.max(64, (this.host.clientWidth - LEFT - RIGHT) / 0.6);
        for (this.zoom = 32; 2 * this.zoom <= most && this.arrange() > this.host.clientHeight;) this.zoom *= 2;
        this.arrange();
        this.draw();
    }

    // Another scale, with what stands at height `y` of the pane kept there.
    zoomTo(zoom, y = this.host.clientHeight / 2) {
        const at = this.host.scrollTop + y, old = this.sections.filter((one) => one.y <= at).pop();
        const bit = old ? ((at - old.y - HEAD) / old.line) * old.bits : 0;
        this.zoom = Math.max(8, Math.min(2 ** 32, zoom));
        this.arrange();
        const now = old && this.sections.find((one) => one.bank === old.bank);
        if (now) this.host.scrollTop = now.y + HEAD + (bit / now.bits) * now.line - y;
        this.draw();
    }

    node(number) {
        const at = firstWhere(this.said.nodes, (n) => n.node >= number), n = this.said.nodes[at];
        return n && n.node === number ? n : undefined;
    }

    choose(number) {
        const n = this.said && number !== NONE ? this.node(number) : undefined, one = n && this.sections.find((section) => section.bank.no === n.bank);
        this.chosen = n ? number : NONE;
        if (one) this.reveal(one.y + HEAD + this.lineOf(one, n) * one.line, one.line);
        this.draw();
    }

    lineOf(one, n) {
        return Math.min(one.lines - 1, Math.floor(n.from / one.bits));
    }

    reveal(y, height) {
        const { scrollTop, clientHeight } = this.host;
        if (y < scrollTop + 4 || y + height > scrollTop + clientHeight - 4) this.host.scrollTop = Math.max(0, y - clientHeight / 3);
    }

    // ---- drawing ----

    draw() {
        this.paint(this.canvas, this.host.scrollTop, this.host.clientWidth, this.host.clientHeight, window.devicePixelRatio || 1);
        this.paintOverview();
    }

    paint(canvas, top, width, height, ratio) {
        canvas.width = Math.round(width * ratio);
        canvas.height = Math.round(height * ratio);
        canvas.style.width = width + "px";
        canvas.style.height = height + "px";
        const g = canvas.getContext("2d");
        this.pens = pensOf(g);
        g.setTransform(ratio, 0, 0, ratio, 0, -top * ratio);
        g.fillStyle = "#fff";
        g.fillRect(0, top, width, height);
        for (const one of this.sections) if (one.y < top + height && one.y + one.height > top) this.paintBank(g, one, top, top + height, width);
    }

    paintBank(g, one, top, bottom, width) {
        this.paintHead(g, one, width);
        const first = Math.max(0, Math.floor((top - one.y - HEAD) / one.line) - 1);
        const end = Math.min(one.lines, Math.ceil((bottom - one.y - HEAD) / one.line) + 1);
        for (let line = first; line < end; line++) this.paintLine(g, one, line);
        const marked = [...this.said.clash].reverse().concat(this.chosen).map((number) => number !== NONE && this.node(number));
        for (const n of marked.filter((found) => found && found.bank === one.bank.no)) this.paintOutline(g, one, n);
    }

    paintHead(g, one, width) {
        const { bank } = one, isAtFault = this.atFault(bank), title = "Bank " + bank.no + (isAtFault ? " (at fault)" : "");
        g.textBaseline = "alphabetic";
        g.textAlign = "left";
        g.fillStyle = isAtFault ? FAULT : "#111";
        g.font = "600 14px " + SANS;
        g.fillText(title, 10, one.y + 19);
        const from = Math.max(LEFT, 22 + g.measureText(title).width);
        g.font = "12px " + SANS;
        g.fillStyle = "#222";
        putParts(g, bankWords(bank), from, one.y + 19, width);
        g.fillStyle = "#4d4d4d";
        const padding = `padding ${bank.skipped} (${several(bank.skippedUnits, "whole unit")})`, free = bank.free === NONE ? "" : `free ${bank.free}`;
        putParts(g, [`used ${bank.used}`, padding, free, `${several(one.bits, "bit")} to a line`], LEFT, one.y + 36, width);
    }

    // A bank that a refusal is about: 2 has its number, 3 two.
    atFault(bank) {
        const { refusal, isBroken } = this.said;
        return !isBroken && refusal !== null && ((refusal[0] === 2 && refusal[1] === bank.no) || (refusal[0] === 3 && refusal.slice(1).includes(bank.no)));
    }

    // A line: its bits from `a` to `z`, its top `y`, and the place of a bit on it.
    lineAt(one, line) {
        const a = line * one.bits, z = Math.min(a + one.bits, Math.max(one.bank.extent, a + 1));
        return { a, z, y: one.y + HEAD + line * one.line + LANE, x: (bit) => LEFT + (bit - a) * one.scale, isLast: line === one.lines - 1 };
    }

    paintLine(g, one, line) {
        const at = this.lineAt(one, line), { areas } = one.bank, first = firstWhere(areas, (area) => area.reach > at.a);
        this.paintGround(g, one, at);
        this.paintScale(g, one, at);
        for (let i = first; i < areas.length && areas[i].from < at.z; i++) if (areas[i].to > at.a) this.paintArea(g, one, at, areas[i]);
        this.paintBits(g, one, at);
        this.paintPoints(g, one, at);
    }

    paintGround(g, one, { a, z, y, x }) {
        const { bank } = one, edge = bank.size === NONE ? a : Math.min(z, bank.size), filled = bank.isFilled ? Math.min(edge, filledTo(this.said, bank)) : a;
        if (edge <= a) return;
        g.fillStyle = this.pens.free;
        g.fillRect(x(a), y, (edge - a) * one.scale, one.box);
        g.fillStyle = this.pens.fill;
        if (filled > a) g.fillRect(x(a), y, (filled - a) * one.scale, one.box);
        g.strokeStyle = "#8f8f8f";
        g.lineWidth = 1;
        g.strokeRect(x(a) + 0.5, y + 0.5, Math.max(1, (edge - a) * one.scale - 1), one.box - 1);
    }

    // The address at the left, the byte of the image at the right of a whole line.
    paintScale(g, one, { a, y, x }) {
        const { bank } = one, address = bank.start + a / bank.unit, right = x(a + Math.min(one.bits, Math.max(bank.extent, 1))) + 8;
        g.font = "11px " + MONO;
        g.textAlign = "right";
        g.fillStyle = "#222";
        g.fillText(address < 0 ? String(address) : hex(address), LEFT - 9, y + one.box / 2 + 4);
        g.textAlign = "left";
        g.fillStyle = "#4d4d4d";
        if (bank.offset !== NONE) g.fillText("byte " + byteAt(bank.offset + a, 0), right, y + one.box / 2 + 4);
    }

    paintArea(g, one, at, area) {
        const from = Math.max(area.from, at.a), to = Math.min(area.to, at.z), low = area.isFault ? one.box * 0.45 : 0;
        const box = [at.x(from), at.y + low, Math.max(0.5, (to - from) * one.scale), one.box - low], paint = PAINT[area.what];
        g.fillStyle = area.isFault ? FAULT : paint ? paint[area.node & 1] : this.pens[area.what];
        g.fillRect(...box);
        if (box[2] >= 3) {
            g.strokeStyle = area.what === "padding" ? "#777" : "#222";
            g.lineWidth = 0.8;
            g.strokeRect(box[0] + 0.4, box[1] + 0.4, box[2] - 0.8, box[3] - 0.8);
        }
        const changes = this.changes.get(area.node);
        if (changes && area.what !== "padding") paintChange(g, box, changeOf(changes));
        if (area.what !== "padding" && (from === area.from || box[2] > 60)) this.paintText(g, area, box);
    }

    // A node's name in its box, or its number, as far as there is room.
    paintText(g, area, [x, y, wide, high]) {
        const name = nameOf(this.said, area.node), number = String(area.node);
        g.font = (area.isFault ? "600 " : "") + "11px " + SANS;
        const text = [name, name && name.split(".").pop(), `${number} ${area.what}`, number].find((one) => one && g.measureText(one).width + 6 < wide);
        if (!text || high < 11) return;
        if (area.what === "reserve") {
            g.fillStyle = "#eef3ea";
            g.fillRect(x + 2, y + 3, g.measureText(text).width + 4, 13);
        }
        g.fillStyle = area.isFault ? "#fff" : "#111";
        g.textAlign = "left";
        g.fillText(text, x + 4, y + Math.min(14, high / 2 + 5));
    }

    // Single bits of the image, where there is room for them.
    paintBits(g, one, { a, z, y, x }) {
        const { bank } = one, { image, length } = this.said;
        const end = Math.min(z, length - bank.offset);
        if (one.scale < BITS_FROM || bank.offset === NONE || !image || end <= a) return;
        g.fillStyle = "#ffffffd0";
        g.fillRect(x(a) + 1, y + one.box - 18, (end - a) * one.scale - 2, 16);
        g.font = "11px " + MONO;
        g.textAlign = "center";
        for (let bit = a; bit < end; bit++) {
            const at = bank.offset + bit, isOne = (image[at >> 3] >> (7 - (at % 8))) & 1;
            g.fillStyle = isOne ? "#000" : "#4d4d4d";
            g.fillText(String(isOne), x(bit) + one.scale / 2, y + one.box - 6);
            if (bit % bank.unit === 0 && bit > a) g.fillRect(x(bit) - 0.5, y + one.box - 18, 1, 16);
        }
    }

    // Labels above the line, marks below it.
    paintPoints(g, one, at) {
        const { points } = one.bank;
        let busy = -Infinity;
        const isHere = (point) => point && (point.at < at.z || (at.isLast && point.at === at.z));
        for (let i = firstWhere(points, (point) => point.at >= at.a); isHere(points[i]); i++) {
            const point = points[i], x = at.x(point.at), changes = this.changes.get(point.node), colour = changes ? CHANGED[changeOf(changes)][0] : "";
            if (point.what === "mark") paintMark(g, x, at.y + one.box, point.isFault ? FAULT : colour || "#111");
            else {
                paintFlag(g, x, at.y, colour || "#17552a");
                busy = this.paintName(g, point, x + 7, at, busy, one.scale, points[i + 1]);
            }
        }
    }

    // A symbol's name, where neither the one before it nor the flag behind it is in its way.
    paintName(g, point, x, at, busy, scale, next) {
        const text = nameOf(this.said, point.node) || (scale > 1.4 ? point.what + " " + point.node : "");
        g.font = "11px " + SANS;
        g.textAlign = "left";
        const end = x + 3 + g.measureText(text).width, isInTheWay = next && next.what !== "mark" && next.at > point.at && at.x(next.at) < end;
        if (!text || x < busy || isInTheWay) return busy;
        g.fillText(text, x, at.y - 4);
        return end + 3;
    }

    // The node at fault, what it meets, and the chosen one, over all lines that it stands on.
    paintOutline(g, one, n) {
        const isFault = this.said.clash[0] === n.node, isHit = this.said.clash[1] === n.node, isChosen = n.node === this.chosen;
        const isBox = isPlaced(n.kind) && n.size > 0;
        const last = Math.min(one.lines - 1, Math.floor((n.from + (isBox ? n.size : 1) - 1) / one.bits)), low = isFault && isBox ? one.box * 0.45 : 0;
        g.save();
        g.strokeStyle = g.fillStyle = isFault ? FAULT : isHit ? HIT : "#000";
        for (let line = this.lineOf(one, n); line <= last; line++) {
            const at = this.lineAt(one, line), from = Math.max(n.from, at.a), to = Math.min(n.from + n.size, at.a + one.bits);
            if (isBox) paintFrame(g, [at.x(from), at.y + low, Math.max(2, (to - from) * one.scale), one.box - low], isChosen, isHit);
            else paintPost(g, at.x(n.from), at.y, one.box, isChosen);
        }
        g.restore();
    }

    // ---- the overview: all banks one behind the other ----

    total() {
        return this.sections.reduce((sum, one) => sum + Math.max(1, one.bank.extent), 0);
    }

    paintOverview() {
        const canvas = this.overview, ratio = window.devicePixelRatio || 1, width = canvas.clientWidth, height = canvas.clientHeight;
        const g = canvas.getContext("2d"), total = this.total();
        canvas.width = Math.round(width * ratio);
        canvas.height = Math.round(height * ratio);
        g.scale(ratio, ratio);
        let at = 0;
        for (const one of this.sections) {
            one.over = at;
            this.paintShort(g, one, (bits) => (bits / total) * width, height);
            at += Math.max(1, one.bank.extent);
        }
        if (!this.sections.length) return;
        const place = (y) => (this.seen(y) / total) * width, from = place(this.host.scrollTop), to = place(this.host.scrollTop + this.host.clientHeight);
        g.strokeStyle = "#000";
        g.lineWidth = 2;
        g.strokeRect(from + 1, 1, Math.max(4, to - from - 2), height - 2);
    }

    paintShort(g, one, x, height) {
        const { bank } = one, wide = Math.max(1, x(Math.max(1, bank.extent)));
        g.fillStyle = bank.isFilled ? "#ececec" : "#fff";
        g.fillRect(x(one.over), 0, wide, height);
        for (const area of bank.areas) {
            const paint = PAINT[area.what];
            g.fillStyle = area.isFault ? FAULT : paint ? paint[area.node & 1] : area.what === "padding" ? "#8f8f8f" : "#b9c9ae";
            g.fillRect(x(one.over + area.from), area.isFault ? 0 : 3, Math.max(0.6, x(area.to - area.from)), area.isFault ? height : height - 6);
        }
        g.strokeStyle = "#666";
        g.lineWidth = 1;
        g.strokeRect(x(one.over) + 0.5, 0.5, Math.max(1, wide - 1), height - 1);
        g.font = "11px " + SANS;
        g.fillStyle = "#111";
        g.lineWidth = 3;
        g.strokeStyle = "#ffffffcc";
        if (wide < 52) return;
        g.strokeText("bank " + bank.no, x(one.over) + 6, height / 2 + 4);
        g.fillText("bank " + bank.no, x(one.over) + 6, height / 2 + 4);
    }

    // What of the overview's bits stands at a height of the picture.
    seen(y) {
        const one = this.sections.filter((section) => section.y <= y).pop();
        if (!one) return 0;
        return one.over + Math.min(one.bank.extent, (Math.max(0, y - one.y - HEAD) / one.line) * one.bits);
    }

    jump(part) {
        const bits = part * this.total(), one = this.sections.filter((section) => section.over <= bits).pop();
        if (one) this.host.scrollTop = one.y + HEAD + ((bits - one.over) / one.bits) * one.line - this.host.clientHeight / 2;
    }

    // ---- what is under the pointer ----

    under(x, y) {
        const one = this.sections.find((section) => y >= section.y + HEAD && y < section.y + HEAD + section.lines * section.line);
        if (!one || x < LEFT - 6) return null;
        const line = Math.floor((y - one.y - HEAD) / one.line), exact = line * one.bits + (x - LEFT) / one.scale, bit = Math.floor(exact), near = 5 / one.scale;
        if (exact > (line + 1) * one.bits + near) return null;
        const points = one.bank.points.filter((point) => Math.abs(point.at - exact) <= near);
        const areas = one.bank.areas.filter((area) => area.from <= bit && bit < area.to);
        const isInside = bit >= 0 && bit < one.bank.size && bit < (line + 1) * one.bits;
        return points.length || areas.length || isInside ? { bank: one.bank, bit, points, areas } : null;
    }

    // For paper: a canvas for each bank, or for so many of its lines as go on a page.
    prints(into, width, most) {
        for (const one of this.sections) {
            const lines = Math.max(1, Math.floor((most - HEAD) / one.line)), pieces = Math.min(MOST_SHEETS, Math.ceil(one.lines / lines));
            const lineAt = (i) => one.y + HEAD + i * lines * one.line;
            Array.from({ length: pieces }).forEach((_, i) => {
                const top = i ? lineAt(i) : one.y, bottom = Math.min(one.y + one.height, lineAt(i + 1));
                this.paint(into.appendChild(document.createElement("canvas")), top, width, bottom - top, 2);
            });
            const left = one.lines - pieces * lines, note = document.createElement("p");
            note.textContent = `Bank ${one.bank.no} has ${several(left, "line")} more; zoom out to print them.`;
            if (left > 0) into.append(note);
        }
    }
}

// How far the areas up to each reach: one that reaches into a line may begin well before it.
function reachOf(bank) {
    let reach = 0;
    for (const area of bank.areas) area.reach = reach = Math.max(reach, area.to);
}

// What a bank's table says of it.
function bankWords(bank) {
    const last = bank.size > 0 ? bank.start + Math.ceil(bank.size / bank.unit) - 1 : "", inHex = ` (${hex(bank.start)}..${last === "" ? "" : hex(last)})`;
    const addresses = bank.size === 0 ? "no addresses" : `addresses ${bank.startText}..${last}` + (bank.start > 9 ? inHex : "");
    const output = bank.offset === NONE ? "not in the image" : "image bits " + (bank.size > 0 ? range(bank.offset, bank.size) : bank.offset + "..");
    const fill = !bank.fill ? "" : !bank.isFilled ? "fill idle" : "filled with " + (bank.ones ? "ones" : "zeros");
    return [several(bank.unit, "bit") + " to an address", addresses, output, fill];
}

// Parts with dots between, as many as there is room for.
function putParts(g, parts, x, y, width) {
    let text = "";
    for (const part of parts.filter((one) => one)) {
        const more = text ? text + "  ·  " + part : part;
        if (text && x + g.measureText(more).width > width - 6) break;
        text = more;
    }
    g.fillText(text, x, y);
}

function paintChange(g, [x, y, wide, high], what) {
    const [colour, dashes] = CHANGED[what];
    g.save();
    g.strokeStyle = colour;
    g.lineWidth = 2.5;
    g.setLineDash(dashes);
    if (wide > 14) g.strokeRect(x + 1.5, y + 1.5, wide - 3, high - 3);
    g.fillStyle = colour;
    g.fillRect(x, y + high - 4, wide, 4);
    g.restore();
}

function paintFlag(g, x, y, colour) {
    g.fillStyle = colour;
    g.fillRect(x - 0.6, y - 7, 1.2, 7);
    g.beginPath();
    g.moveTo(x, y - 7);
    g.lineTo(x + 5.5, y - 4.4);
    g.lineTo(x, y - 1.8);
    g.fill();
}

function paintMark(g, x, y, colour) {
    g.fillStyle = colour;
    g.beginPath();
    g.moveTo(x, y - 3);
    g.lineTo(x - 4.5, y + 5.5);
    g.lineTo(x + 4.5, y + 5.5);
    g.fill();
}

function paintFrame(g, [x, y, wide, high], isChosen, isDashed) {
    g.save();
    if (isChosen) {
        g.strokeStyle = CHOSEN;
        g.lineWidth = 6;
        g.strokeRect(x - 1, y - 1, wide + 2, high + 2);
    }
    g.restore();
    g.setLineDash(isDashed ? [7, 3] : []);
    g.lineWidth = 2.4;
    g.strokeRect(x - 1, y - 1, wide + 2, high + 2);
}

// A thing without size: a post through its line.
function paintPost(g, x, y, box, isChosen) {
    g.save();
    if (isChosen) {
        g.fillStyle = CHOSEN;
        g.fillRect(x - 3.5, y - 8, 7, box + 14);
    }
    g.restore();
    g.fillRect(x - 1.3, y - 8, 2.6, box + 14);
    for (const [from, step] of [[y - 8, 7], [y + box + 6, -7]]) {
        g.beginPath();
        g.moveTo(x - 6, from);
        g.lineTo(x + 6, from);
        g.lineTo(x, from + step);
        g.fill();
    }
}
