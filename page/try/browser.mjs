// A page in a headless Chromium, driven over a pipe by the DevTools protocol: open, type, press, evaluate, picture.
import { spawn } from "node:child_process";
import { mkdtempSync, readFileSync, readdirSync, rmSync, writeFileSync } from "node:fs";
import { tmpdir } from "node:os";

const sleep = (ms) => new Promise((done) => setTimeout(done, ms));

/** The bytes of memory that the renderers below a process have, as the host counts them. */
function resident(root) {
  const told = (pid, file) => { try { return readFileSync(`/proc/${pid}/${file}`, "latin1"); } catch { return ""; } };
  const all = readdirSync("/proc").filter((it) => /^\d+$/.test(it)), parents = new Map(all.map((pid) => [pid, told(pid, "stat").replace(/^.*\) . /s, "").split(" ")[0]]));
  const is_below = (pid) => { for (let k = 0; k < 9 && pid; k++, pid = parents.get(pid)) if (pid === String(root)) return true; return false; };
  const renderers = all.filter((pid) => told(pid, "cmdline").includes("--type=renderer") && is_below(pid));
  return renderers.reduce((sum, pid) => sum + 1024 * Number(/VmRSS:\s*(\d+)/.exec(told(pid, "status"))?.[1] ?? 0), 0);
}

export async function open(url, { width = 1400, height = 900, dark = false, mobile = false } = {}) {
  const folder = mkdtempSync(tmpdir() + "/look-");
  const chrome = spawn("chromium", ["--headless=new", "--no-sandbox", "--disable-gpu", "--hide-scrollbars", "--remote-debugging-pipe", `--user-data-dir=${folder}`, `--window-size=${width},${height}`], { stdio: ["ignore", "ignore", "ignore", "pipe", "pipe"] });
  chrome.once("error", (error) => { console.error(error.code === "ENOENT" ? "there is no chromium: apt-get install chromium" : error.message); process.exit(2); });
  const [, , , input, output] = chrome.stdio, waiting = new Map(), logs = [], workers = [];
  let buffer = "", last = 0, session;
  output.on("data", (part) => {
    buffer += part;
    for (let end; (end = buffer.indexOf("\0")) >= 0; buffer = buffer.slice(end + 1)) {
      const it = JSON.parse(buffer.slice(0, end));
      if (it.id) { waiting.get(it.id)(it); waiting.delete(it.id); }
      else if (it.method === "Target.attachedToTarget" && it.params.targetInfo.type === "worker") workers.push(it.params.sessionId);
      else if (it.method === "Page.javascriptDialogOpening" && it.params.type === "beforeunload") send("Page.handleJavaScriptDialog", { accept: true }, it.sessionId).catch(() => {});
      else if (it.method === "Runtime.exceptionThrown") logs.push(it.params.exceptionDetails.exception?.description || it.params.exceptionDetails.text);
      else if (it.method === "Runtime.consoleAPICalled") logs.push(it.params.args.map((arg) => arg.value ?? arg.description).join(" "));
    }
  });
  const send = (method, params = {}, to = session) => new Promise((done, fail) => {
    const id = ++last;
    waiting.set(id, (it) => (it.error ? fail(new Error(`${method}: ${it.error.message}`)) : done(it.result)));
    input.write(JSON.stringify({ id, method, params, sessionId: to }) + "\0");
  });
  /** The bytes that JavaScript uses behind a collection of garbage, without its arrays of numbers and with them. */
  const heap_of = async (to) => {
    await send("HeapProfiler.collectGarbage", {}, to);
    const { usedSize, backingStorageSize = 0 } = await send("Runtime.getHeapUsage", {}, to);
    return { used: usedSize, all: usedSize + backingStorageSize };
  };
  const tabs = []; // {target, session} of each
  const attach = async (target) => {
    session = (await send("Target.attachToTarget", { targetId: target, flatten: true })).sessionId;
    tabs.push({ target, session });
    await send("Page.enable");
    await send("Runtime.enable");
    await send("Target.setAutoAttach", { autoAttach: true, waitForDebuggerOnStart: false, flatten: true });
    await send("Emulation.setDeviceMetricsOverride", { width, height, deviceScaleFactor: mobile ? 2 : 1, mobile });
    await send("Emulation.setEmulatedMedia", { features: [{ name: "prefers-color-scheme", value: dark ? "dark" : "light" }] });
  };
  const { targetInfos } = await send("Target.getTargets", {}, undefined);
  await attach(targetInfos.find((it) => it.type === "page").targetId);
  const page = {
    logs, send, sleep,
    /** What a reader of the screen is told of the element that has the keys: {role, name}, as the browser has it. */
    async focused() {
      const { result } = await send("Runtime.evaluate", { expression: "document.activeElement" });
      const { nodes: [it] } = await send("Accessibility.getPartialAXTree", { objectId: result.objectId, fetchRelatives: false });
      return { role: it?.role?.value ?? "", name: it?.name?.value ?? "" };
    },
    /** The memory of the page's JavaScript, and of its workers', in bytes. */
    async heaps() {
      const told = await Promise.all([session, ...workers].map(heap_of)), [page, ...others] = told.map((it) => it.used);
      return { page, workers: others, all: told.map((it) => it.all), resident: resident(chrome.pid) };
    },
    /** Goes to a tab, from 0 on; the next one that isn't there is opened. */
    async tab(number) {
      if (number === tabs.length) await attach((await send("Target.createTarget", { url: "about:blank" }, undefined)).targetId);
      session = tabs[number].session;
      await send("Target.activateTarget", { targetId: tabs[number].target }, undefined);
    },
    async go(to) { await send("Page.navigate", { url: to }); await page.until("window.ready === true", 120000).catch((error) => logs.push(error.message)); },
    async eval(expression) {
      const { result, exceptionDetails } = await send("Runtime.evaluate", { expression, awaitPromise: true, returnByValue: true });
      if (exceptionDetails) throw new Error(exceptionDetails.exception?.description || exceptionDetails.text);
      return result.value;
    },
    async until(expression, ms = 40000) {
      for (const end = Date.now() + ms; Date.now() < end; await sleep(50)) if (await page.eval(`!!(${expression})`)) return;
      throw new Error(`not so after ${ms} ms: ${expression}`);
    },
    async key(key, { shift = false, control = false } = {}) {
      const special = { Enter: 13, Backspace: 8, Escape: 27, Tab: 9, ArrowLeft: 37, ArrowUp: 38, ArrowRight: 39, ArrowDown: 40, Home: 36, F9: 120, " ": 32 };
      const modifiers = (control ? 2 : 0) + (shift ? 8 : 0), code = special[key] ?? (/^[a-z0-9]$/i.test(key) ? key.toUpperCase().charCodeAt(0) : 0), text = control ? undefined : key === "Enter" ? "\r" : key.length === 1 ? key : undefined;
      await send("Input.dispatchKeyEvent", { type: text ? "keyDown" : "rawKeyDown", key, text, modifiers, windowsVirtualKeyCode: code });
      await send("Input.dispatchKeyEvent", { type: "keyUp", key, modifiers, windowsVirtualKeyCode: code });
    },
    async type(text) { for (const it of text) await page.key(it === "\n" ? "Enter" : it); },
    async click(selector) { await page.eval(`document.querySelector(${JSON.stringify(selector)}).click()`); },
    async picture(path, { full = false } = {}) {
      const clip = full ? await page.eval("({ x: 0, y: 0, width: innerWidth, height: Math.min(document.documentElement.scrollHeight, 6000), scale: 1 })") : undefined;
      const { data } = await send("Page.captureScreenshot", { format: "png", captureBeyondViewport: full, ...(clip ? { clip } : {}) });
      writeFileSync(path, Buffer.from(data, "base64"));
    },
    async close() { const gone = new Promise((done) => chrome.once("exit", done)); chrome.kill(); await gone; await sleep(300); try { rmSync(folder, { recursive: true, force: true, maxRetries: 5 }); } catch { /* a child of the browser may still write there */ } },
  };
  await page.go(url);
  return page;
}
