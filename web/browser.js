"use strict";
// Chromium over its debugging pipe, for web/test_browser.js: a page is opened, files are dropped on it, pointer and keys are moved, pictures taken.
const child = require("child_process");
const fs = require("fs");
const path = require("path");

const sleep = (ms) => new Promise((done) => setTimeout(done, ms));

class Browser {
    constructor(program, room) {
        Object.assign(this, { room, sent: 0, text: "", waiting: new Map(), requests: [], errors: [], begun: new Map(), done: new Set(),
            downloads: path.join(room, "downloads") });
        fs.mkdirSync(this.downloads);
        const words = ["--headless=new", "--no-sandbox", "--disable-gpu", "--disable-dev-shm-usage", "--no-first-run", "--disable-extensions",
            "--remote-debugging-pipe", "--window-size=1500,950", "--user-data-dir=" + path.join(room, "profile"), "about:blank"];
        this.process = child.spawn(program, words, { stdio: ["ignore", "ignore", "ignore", "pipe", "pipe"], env: { ...process.env, HOME: room } });
        this.process.stdio[4].on("data", (data) => this.take(data));
        this.process.on("exit", () => this.waiting.forEach(({ failed }) => failed(new Error("the browser ended"))));
        this.process.stdio[3].on("error", () => {});
    }

    take(data) {
        const parts = (this.text + data).split("\0");
        this.text = parts.pop();
        for (const part of parts) this.takeOne(JSON.parse(part));
    }

    takeOne(message) {
        const { id, method, params, error, result } = message, asked = this.waiting.get(id);
        if (asked) {
            this.waiting.delete(id);
            if (error) asked.failed(new Error(JSON.stringify(error)));
            else asked.done(result);
        } else if (method === "Network.requestWillBeSent") this.requests.push(params.request.url);
        else if (method === "Browser.downloadWillBegin") this.begun.set(params.guid, params.suggestedFilename);
        else if (method === "Browser.downloadProgress" && params.state === "completed") this.done.add(this.begun.get(params.guid));
        else if (method === "Runtime.exceptionThrown") this.errors.push(JSON.stringify(params.exceptionDetails).slice(0, 400));
        else if (method === "Log.entryAdded" && params.entry.level === "error") this.errors.push(params.entry.text);
    }

    send(method, params = {}, session = this.session) {
        return new Promise((done, failed) => {
            this.waiting.set(++this.sent, { done, failed });
            this.process.stdio[3].write(JSON.stringify({ id: this.sent, method, params, sessionId: session }) + "\0");
        });
    }

    async open(address) {
        if (!this.session) {
            const { targetInfos } = await this.send("Target.getTargets"), { targetId } = targetInfos.find((one) => one.type === "page");
            await this.send("Browser.setDownloadBehavior", { behavior: "allow", downloadPath: this.downloads, eventsEnabled: true });
            this.session = (await this.send("Target.attachToTarget", { targetId, flatten: true })).sessionId;
            for (const domain of ["Page", "Runtime", "Network", "Log"]) await this.send(domain + ".enable");
            await this.send("Emulation.setDeviceMetricsOverride", { width: 1500, height: 950, deviceScaleFactor: 1, mobile: false });
        }
        await this.ask("window.isLeft = true");
        await this.send("Page.navigate", { url: address });
        await this.until("!window.isLeft && typeof state === 'object' && state.isReady");
    }

    async ask(expression) {
        const { result, exceptionDetails } = await this.send("Runtime.evaluate", { expression, awaitPromise: true, returnByValue: true });
        if (exceptionDetails) throw new Error(exceptionDetails.exception.description);
        return result.value;
    }

    async until(expression) {
        for (let i = 0; i < 300; i++) {
            if (await this.ask(expression).catch(() => false)) return;
            await sleep(20);
        }
        throw new Error("waited in vain for " + expression);
    }

    // Files are dropped on the page, which has shown them when its turn is over.
    async drop(...files) {
        const turn = await this.ask("state.turn");
        for (const type of ["dragEnter", "dragOver", "drop"])
            await this.send("Input.dispatchDragEvent", { type, x: 500, y: 500, data: { items: [], files, dragOperationsMask: 1 } });
        await this.until(`state.turn > ${turn} && state.done === state.turn`);
    }

    async move(x, y) {
        await this.send("Input.dispatchMouseEvent", { type: "mouseMoved", x, y });
    }

    async click(selector) {
        const { x, y, width, height } = await this.ask(`document.querySelector(${JSON.stringify(selector)}).getBoundingClientRect().toJSON()`);
        await this.clickAt(x + width / 2, y + height / 2);
    }

    async clickAt(x, y) {
        for (const type of ["mousePressed", "mouseReleased"]) await this.send("Input.dispatchMouseEvent", { type, x, y, button: "left", clickCount: 1 });
    }

    async press(key, text) {
        await this.send("Input.dispatchKeyEvent", { type: "keyDown", key, text });
        await this.send("Input.dispatchKeyEvent", { type: "keyUp", key });
    }

    async type(selector, text) {
        await this.ask(`document.querySelector(${JSON.stringify(selector)}).select()`);
        await this.ask(`document.querySelector(${JSON.stringify(selector)}).focus()`);
        await this.send("Input.insertText", { text });
    }

    async picture(file) {
        fs.writeFileSync(file, Buffer.from((await this.send("Page.captureScreenshot")).data, "base64"));
    }

    // What was saved under a name, and takes it away.
    async saved(name) {
        const file = path.join(this.downloads, name);
        for (let i = 0; i < 500 && !this.done.has(name); i++) await sleep(20);
        const text = this.done.delete(name) ? fs.readFileSync(file, "utf8") : "nothing was saved";
        fs.rmSync(file, { force: true });
        return text;
    }

    async close() {
        const ended = new Promise((done) => this.process.on("exit", done));
        await Promise.race([this.send("Browser.close", {}, undefined).catch(() => {}), sleep(2000)]);
        await Promise.race([ended, sleep(3000)]);
        this.process.kill("SIGKILL");
    }
}

module.exports = { Browser, sleep };
