// The instruction that is next, with those round it, the registers, and memory.
import { $, app, ask, element, on, program_name, say, tell, write } from "./app.mjs";
import { grouped, hex, number } from "../../anywhere/machine/number_words.mjs";
import { line_at, name_at } from "../../anywhere/machine/source_places.mjs";
import { known_call } from "../../anywhere/machine/calls.mjs";
import { REGISTERS } from "../../anywhere/machine/registers.mjs";

let before = null, changed = new Set(), as = "bytes";

/** The program that a process runs, or ran as it ended. */
export function program_of(pid) {
  const { ended, processes } = app.view;
  return ended ? ended.program : processes.find((it) => it.pid === pid)?.program;
}
export const symbols_of = (pid) => app.symbols[program_of(pid)] ?? null;

/** Which process is shown, and whether it has ended. */
function who() {
  const { pid, ended } = app.view;
  if (!pid) return "";
  const name = `${pid} (${program_name(program_of(pid))})`;
  return ended
    ? `${name}, as it ended at event ${grouped(ended.at)}${ended.is_fault ? ", by a fault" : ` with ${ended.number}`}`
    : name;
}

/** Shows nothing: there is no process, or another machine. */
function clear() {
  code_rows = [];
  cells = [];
  before = null;
  scrolled = memory_told = "";
  for (const it of ["code", "registers", "memory"]) $(it).replaceChildren();
}

/** The row of an instruction, and above it the name of what begins there. */
function new_code_row() {
  const name = element("span", { class: "fn" });
  const address = element("span", {
    class: "dim to-translate", title: "Translate this address",
    onclick: () => tell("translate", { text: address.textContent, access: "fetch" }),
  });
  const text = document.createTextNode(""), note = element("span", { class: "from" });
  return {
    name, address, text, note, row: element("div", { role: "listitem" }, address, text, note), word: null,
    is_next: null,
  };
}

/** Notes the word of a row, and whether it is the next one, if these are others than before. */
function mark_row(of, word, is_next) {
  if (of.word !== word) of.row.title = `the word ${hex(BigInt(word >>> 0))}`;
  if (of.is_next !== is_next) {
    of.row.className = is_next ? "pc" : "";
    if (is_next) of.row.setAttribute("aria-current", "true"); else of.row.removeAttribute("aria-current");
  }
  Object.assign(of, { word, is_next });
}

let code_rows = [], scrolled = "";
function draw_code() {
  const { view } = app, symbols = symbols_of(view.pid), pc = view.registers[0], list = view.code, box = $("code");
  if (code_rows.length !== list.length) {
    code_rows = list.map((_, k) => code_rows[k] ?? new_code_row());
    box.replaceChildren(...code_rows.flatMap((it) => [it.name, it.row]));
  }
  const heads = list.map((it) => name_at(symbols, it.address)).map((name) => (
    name && !name.includes("+") ? name + ":" : ""
  ));
  list.forEach((it, k) => {
    const { name, address, text, note } = code_rows[k], line = line_at(symbols, it.address);
    const is_next = it.address === pc;
    let words = line ? `${line.line}  ${line.text.replace(/^\w+:\s*/, "")}` : "";
    if (it.text === "ecall" && is_next) words = `call ${known_call(Number(view.registers[17])) ?? view.registers[17]}`;
    if (name.hidden !== !heads[k]) name.hidden = !heads[k];
    write(name, heads[k]);
    write(address, hex(it.address));
    write(text, it.text || "no instruction");
    write(note, words);
    mark_row(code_rows[k], it.word, is_next);
  });
  // While the machine plays, the pc's row stands where it stood, if there are as many rows before it.
  const at = list.findIndex((it) => it.address === pc);
  const above = `${at} ${heads.slice(0, at + 1).filter((it) => it).length} ${list.length}`;
  if (at < 0 || (view.playing && above === scrolled)) return;
  scrolled = above;
  box.scrollTop = code_rows[at].row.offsetTop - box.offsetTop - box.clientHeight / 2.6;
}

let cells = [];
function draw_registers() {
  const { view } = app, { registers } = view;
  // The last change stays coloured until the next event of this process.
  const key = `${view.pid} ${view.at}`;
  if (!before || before.pid !== view.pid) changed = new Set();
  else if (before.key !== key) {
    changed = new Set([...registers].flatMap((it, k) => (it !== before.registers[k] ? [k] : [])));
  }
  before = { key, pid: view.pid, registers };
  if (!cells.length) {
    cells = REGISTERS.map((name) => ({ name, value: element("span"), told: null, is_new: false }));
    $("registers").replaceChildren(
      ...cells.map((it) => (
        it.row = element(
          "div",
          {
            role: "listitem",
            onclick: () => tell("translate", { text: it.name, access: it.name === "pc" ? "fetch" : "load" }),
          },
          element("b", {}, it.name), it.value
        )
      ))
    );
  }
  cells.forEach((it, k) => {
    const is_new = changed.has(k);
    if (it.is_new !== is_new) it.value.className = is_new ? "new" : "";
    it.is_new = is_new;
    if (it.told === registers[k]) return;
    it.told = registers[k];
    it.row.title = `${k ? "x" + k : "pc"} = ${hex(it.told)} = ${BigInt.asIntN(64, it.told)}; a click translates it as an address`;
    it.value.textContent = k < 3 ? hex(it.told) : number(it.told);
  });
}

let memory_told = "", is_narrow = null;
function draw_memory() {
  const { view } = app, { memory } = view, lines = [];
  if (!memory) return;
  const { at, bytes } = memory, pre = $("memory");
  const next = view.next === null || view.next === undefined ? -1 : Number(view.next - at);
  is_narrow ??= pre.clientWidth < 600;
  const data = new DataView(bytes.buffer, bytes.byteOffset, bytes.length);
  const columns = as === "text" ? 32 : as === "bytes" && is_narrow ? 8 : 16;
  for (let row = 0; row < bytes.length; row += columns) {
    const is_next = next >= row && next < row + columns;
    let text = hex(at + BigInt(row)).padEnd(10) + (is_next ? ">" : " ");
    const part = bytes.subarray(row, row + columns);
    if (as === "words") {
      for (let k = 0; k + 8 <= part.length; k += 8) text += number(data.getBigUint64(row + k, true)).padStart(19);
    } else if (as === "text") {
      text += [...part].map(
        (it) => (it > 31 && it < 127 ? String.fromCharCode(it) : it === 10 ? "↵" : it ? "·" : " ")
      ).join("");
    } else {
      text += [...part].map(
        (it, k) => (k === 8 ? " " : "") + it.toString(16).padStart(2, "0")
      ).join(" ") + "  " + [...part].map((it) => (it > 31 && it < 127 ? String.fromCharCode(it) : "·")).join("");
    }
    lines.push({ is_next, text });
  }
  const told = JSON.stringify([hex(at), lines]);
  if (told === memory_told) return;
  memory_told = told;
  if (!lines.length) pre.textContent = `no page at ${hex(at)}`;
  else {
    pre.replaceChildren(
      ...lines.flatMap(({ is_next, text }) => [
        is_next ? element("i", { title: "the next instruction loads from here, or stores to here" }, text) : text, "\n",
      ])
    );
  }
}

/** The address that is meant, a number, a register, or a label; undefined if none is. */
export function address_meant(text) {
  const { view } = app, name = text.trim();
  if (/^(0x[0-9a-f]{1,16}|\d{1,20})$/i.test(name)) return BigInt(name) < 1n << 64n ? BigInt(name) : undefined;
  const register = REGISTERS.indexOf(name);
  if (register >= 0) return view?.registers?.[register];
  return view?.registers && symbols_of(view.pid)?.names.find((it) => it.name === name)?.address;
}

/** The address from which on memory is shown; null: it goes with sp. */
function meant(text) {
  const at = address_meant(text), is_register = REGISTERS.includes(text.trim());
  return text.trim() === "sp" ? null : at !== undefined && is_register ? at & ~15n : at;
}

export function start() {
  on("panels", () => {
    const { view } = app;
    for (const it of document.querySelectorAll(".who")) write(it, who());
    if ($("instruction").hidden) return;
    if (!view.registers) { clear(); return; }
    if (view.code) draw_code();
    draw_registers();
    draw_memory();
  });
  on("booted", clear);
  on("resized", () => { is_narrow = null; });
  $("address").addEventListener("change", () => {
    const at = meant($("address").value);
    $("address").setAttribute("aria-invalid", at === undefined ? "true" : "false");
    if (at !== undefined) ask("look", { memory: at });
  });
  $("stored-here").addEventListener("click", () => {
    const at = address_meant($("address").value);
    if (at === undefined) say("Write an address, a register or a label at the left"); else tell("stored here", at);
  });
  const forms = [...document.querySelectorAll("[data-as]")];
  const show_as = (chosen) => {
    as = chosen.dataset.as;
    for (const it of forms) { it.setAttribute("aria-checked", it === chosen); it.tabIndex = it === chosen ? 0 : -1; }
    if (app.view) draw_memory();
  };
  for (const it of forms) {
    it.addEventListener("click", () => show_as(it));
    it.addEventListener("keydown", (event) => {
      const by = { ArrowRight: 1, ArrowDown: 1, ArrowLeft: -1, ArrowUp: -1 }[event.key];
      if (!by) return;
      event.preventDefault();
      const next = forms[(forms.indexOf(it) + by + forms.length) % forms.length];
      next.focus();
      show_as(next);
    });
  }
}
