// A page in a headless Firefox, driven by its Marionette protocol, with the same calls as browser.mjs: open, type,
// press, evaluate, picture.
import { spawn } from "node:child_process";
import { mkdtempSync, readFileSync, rmSync, writeFileSync } from "node:fs";
import { connect } from "node:net";
import { tmpdir } from "node:os";

const sleep = (ms) => new Promise((done) => setTimeout(done, ms));
const SPECIAL = { Enter: "\uE007", Backspace: "\uE003", Escape: "\uE00C", Tab: "\uE004", ArrowLeft: "\uE012", ArrowUp: "\uE013", ArrowRight: "\uE014", ArrowDown: "\uE015", Home: "\uE011", End: "\uE010", PageUp: "\uE00E", PageDown: "\uE00F", F9: "\uE039" };

/** The connection to a browser's Marionette: packets are LENGTH:JSON. */
async function marionette(folder) {
  let port = "";
  for (let k = 0; k < 1200 && !port; k++) { await sleep(100); try { port = readFileSync(`${folder}/MarionetteActivePort`, "utf8").trim(); } catch { /* it isn't up yet */ } }
  if (!port) throw new Error("Firefox doesn't tell its port");
  const socket = connect(Number(port), "127.0.0.1"), waiting = new Map();
  let held = Buffer.alloc(0), last = 0, greeted;
  const greeting = new Promise((done) => { greeted = done; });
  socket.on("data", (part) => {
    held = Buffer.concat([held, part]);
    for (let colon; (colon = held.indexOf(":")) >= 0; ) {
      const length = Number(held.subarray(0, colon).toString()), end = colon + 1 + length;
      if (held.length < end) return;
      const told = JSON.parse(held.subarray(colon + 1, end).toString());
      held = held.subarray(end);
      if (!Array.isArray(told)) { greeted(); continue; }
      const [, id, error, result] = told, { done, fail, name } = waiting.get(id);
      waiting.delete(id);
      if (error) fail(new Error(`${name}: ${error.message}`)); else done(result);
    }
  });
  await greeting;
  return {
    send: (name, params = {}) => new Promise((done, fail) => {
      const id = ++last, text = JSON.stringify([0, id, name, params]);
      waiting.set(id, { done, fail, name });
      socket.write(`${Buffer.byteLength(text)}:${text}`);
    }),
    end: () => socket.destroy(),
  };
}

export async function open(url, { width = 1400, height = 900, dark = false, mobile = false } = {}) {
  const folder = mkdtempSync(tmpdir() + "/look-");
  writeFileSync(`${folder}/user.js`, `user_pref("marionette.port", 0);
user_pref("layout.css.prefers-color-scheme.content-override", ${dark ? 0 : 1});
user_pref("layout.css.devPixelsPerPx", "${mobile ? 2 : 1}");
user_pref("browser.shell.checkDefaultBrowser", false);
user_pref("datareporting.policy.dataSubmissionEnabled", false);
user_pref("app.update.enabled", false);
`);
  const firefox = spawn("firefox-esr", ["--headless", "--no-remote", "--marionette", "--profile", folder], { stdio: "ignore", env: { ...process.env, HOME: folder, MOZ_HEADLESS_WIDTH: String(width), MOZ_HEADLESS_HEIGHT: String(height) } });
  firefox.once("error", (error) => { console.error(error.code === "ENOENT" ? "there is no firefox-esr: apt-get install firefox-esr" : error.message); process.exit(2); });
  const { send, end } = await marionette(folder);
  await send("WebDriver:NewSession", { capabilities: { alwaysMatch: { acceptInsecureCerts: true } } });
  await send("WebDriver:SetTimeouts", { script: 120000, pageLoad: 120000 });
  const logs = [];
  // The window's rectangle has the browser's bars in it: what is wanted is the page's size.
  await send("WebDriver:SetWindowRect", { width, height });
  const script = (text, args = []) => send("WebDriver:ExecuteAsyncScript", { script: text, args, sandbox: null });
  const { value: inner } = await script("arguments[0]([innerWidth, innerHeight])");
  await send("WebDriver:SetWindowRect", { width: 2 * width - inner[0], height: 2 * height - inner[1] });
  const tabs = [(await send("WebDriver:GetWindowHandle")).value];
  const page = {
    logs, send, sleep,
    /** What a reader of the screen is told of the element that has the keys: {role, name}, as the browser has it. */
    async focused() {
      const { value } = await send("WebDriver:GetActiveElement"), [id] = Object.values(value);
      const told = (name) => send(name, { id }).then((it) => it.value);
      return { role: await told("WebDriver:GetComputedRole"), name: await told("WebDriver:GetComputedLabel") };
    },
    /** Goes to a tab, from 0 on; the next one that isn't there is opened. */
    async tab(number) {
      if (number === tabs.length) tabs.push((await send("WebDriver:NewWindow", { type: "tab" })).handle);
      await send("WebDriver:SwitchToWindow", { handle: tabs[number], focus: true });
    },
    async go(to) { await send("WebDriver:Navigate", { url: to }); await page.until("window.ready === true", 120000).catch((error) => logs.push(error.message)); await page.eval("(() => { window.errors_seen = []; addEventListener('error', (it) => window.errors_seen.push(it.message)); const old = console.error; console.error = (...words) => { window.errors_seen.push(words.join(' ')); old(...words); }; })()"); },
    async eval(expression) {
      const { value } = await script("const [words, done] = arguments; (async () => { try { done({ value: (await (0, window.eval)(words)) ?? null }); } catch (error) { done({ error: String((error && error.stack) || error) }); } })();", [expression]);
      if (value.error !== undefined) throw new Error(value.error);
      return value.value;
    },
    async until(expression, ms = 40000) {
      for (const stop = Date.now() + ms; Date.now() < stop; await sleep(50)) if (await page.eval(`!!(${expression})`)) return;
      throw new Error(`not so after ${ms} ms: ${expression}`);
    },
    async key(key, { shift = false, control = false } = {}) {
      const held = [...(shift ? ["\uE008"] : []), ...(control ? ["\uE009"] : [])], value = SPECIAL[key] ?? key;
      const actions = [...held.map((it) => ({ type: "keyDown", value: it })), { type: "keyDown", value }, { type: "keyUp", value }, ...held.reverse().map((it) => ({ type: "keyUp", value: it }))];
      await send("WebDriver:PerformActions", { actions: [{ type: "key", id: "keys", actions }] });
    },
    async type(text) { for (const it of text) await page.key(it === "\n" ? "Enter" : it); },
    async click(selector) { await page.eval(`document.querySelector(${JSON.stringify(selector)}).click()`); },
    async picture(path, { full = false } = {}) {
      const { value } = await send("WebDriver:TakeScreenshot", { full, hash: false });
      writeFileSync(path, Buffer.from(value, "base64"));
    },
    async close() {
      try { logs.push(...(await page.eval("window.errors_seen"))); } catch { /* the page is gone */ }
      const gone = new Promise((done) => firefox.once("exit", done));
      await send("Marionette:Quit", { flags: ["eForceQuit"] }).catch(() => {});
      end();
      setTimeout(() => firefox.kill(), 3000).unref();
      await gone;
      rmSync(folder, { recursive: true, force: true, maxRetries: 5 });
    },
  };
  await page.go(url);
  return page;
}
