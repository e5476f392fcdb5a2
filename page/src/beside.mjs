// Two processes side by side at one event: parent and child, writer and reader, or any two. Of each the source, the
// instructions, the registers, the descriptors and the memory; what differs has a sign.
import { $, app, ask, color_of, element, on, program_name, write } from "./app.mjs";
import { grouped, hex, number } from "../../anywhere/machine/number_words.mjs";
import { REGISTERS } from "../../anywhere/machine/registers.mjs";
import { line_at } from "../../anywhere/machine/source_places.mjs";
import { rights_of, target_words } from "./descriptors.mjs";
import { state_of } from "./processes.mjs";

const AROUND = 3; // lines of a source that are shown before and after the line that is next
const CODE_BEFORE = 1, CODE = 5; // instructions before the pc, and of all that are shown
const IN_A_ROW = 8; // bytes of memory
const SIDES = [0, 1];
const shown = { pids: null, at: "sp", told: ["", ""] }; // `pids`: null while nothing is shown

// ---- which two

const process_of = (pid) => app.view.processes.find((it) => it.pid === pid);

/** The pairs that belong together here, with what they are to each other. */
function pairs() {
  const { processes, files } = app.view, live = new Set(processes.filter((it) => it.lives).map((it) => it.pid));
  const births = processes.filter((it) => live.has(it.pid) && live.has(it.parent))
    .map((it) => ({ pids: [it.parent, it.pid], words: "parent and child" }));
  const holders = (frame, kind) => [...new Set(
    (files?.descriptors ?? []).filter((it) => it.frame === frame && it.kind === kind).map((it) => it.pid)
  )];
  const pipes = (files?.pipes ?? []).flatMap(({ frame }) => holders(frame, 4).flatMap((writer) => (
    holders(frame, 3).filter((it) => it !== writer)
      .map((reader) => ({ pids: [writer, reader], words: `writer and reader of the pipe in frame ${frame}` }))
  )));
  return [...pipes, ...births];
}

/** The two that are shown first: those of a pipe, or parent and child, one of which is looked at; else any. */
function first_two() {
  const { pid, processes } = app.view, all = pairs();
  const own = all.find((it) => it.pids.includes(pid)) ?? all[0];
  const [one = 1, other = one] = processes.map((it) => it.pid);
  return own?.pids ?? [one, other];
}

/** The address from which on a process's memory is shown: one, or the number of a register. */
function meant(text, pid) {
  const register = REGISTERS.indexOf(text);
  if (register >= 0) return register;
  if (/^(0x[0-9a-f]{1,16}|\d{1,20})$/i.test(text)) return BigInt.asUintN(64, BigInt(text));
  const symbols = app.symbols[process_of(pid)?.program];
  return symbols?.names.find((it) => it.name === text)?.address;
}

/** Asks the worker for what is shown. */
function look() {
  const { pids, at } = shown;
  if (!pids) { ask("look", { beside: null }); return; }
  const memory = pids.map((pid) => meant(at, pid) ?? null), is_meant = memory.some((it) => it !== null);
  $("beside-at").setAttribute("aria-invalid", is_meant ? "false" : "true");
  ask("look", { beside: { pids, memory } });
}

/** Shows two processes, or none (null); `at`: the address of the memory that is shown, a register or a label. */
export function show_beside(pids, at = "sp") {
  Object.assign(shown, { pids, at, told: ["", ""] });
  $("beside").hidden = !pids;
  if (pids) document.documentElement.dataset.beside = "yes"; else delete document.documentElement.dataset.beside;
  $("beside-at").value = at;
  $("open-beside").setAttribute("aria-pressed", pids ? "true" : "false");
  look();
  if (pids && app.view?.whole) draw();
}

/** The words of a link to what is shown: `beside=2,3`, and `memory=` if it isn't that at sp; nothing if none is. */
export const beside_now = () => (
  shown.pids ? { beside: shown.pids.join(","), ...(shown.at === "sp" ? {} : { memory: shown.at }) } : {}
);

// ---- what is shown of one

const row = (words, is_next, differs, more = null) => element(
  "div", { role: "listitem", class: is_next ? "pc" : "", "aria-current": is_next ? "true" : null },
  element("span", { class: "differs", title: differs ? "the other has something else" : null }, differs ? "≠" : " "),
  words, more
);
const list = (name, rows) => element("div", { class: "mono rows", role: "list", "aria-label": name }, ...rows);

/** The lines of the source round the one that is next; nothing if it isn't known. */
function source_of({ registers, program }) {
  const symbols = app.symbols[program], line = symbols && line_at(symbols, registers[0]);
  if (!line) return [];
  const file = line.file ?? `${app.booted.files[program].from.name}`;
  const all = line.file ? symbols.text_of(line.file) : (app.booted.files[program].text ?? "").split("\n");
  const from = Math.max(0, line.line - 1 - AROUND), some = all.slice(from, line.line + AROUND);
  const rows = some.map((it, k) => {
    const place = from + k + 1;
    return row(`${String(place).padStart(4)}  ${it}`, place === line.line, false);
  });
  return [element("h3", {}, `${file}:${line.line}`), list(`Source ${file}`, rows)];
}

function code_of({ code, registers }) {
  const at = Math.max(0, code.findIndex((it) => it.address === registers[0]) - CODE_BEFORE);
  const words = ({ address, text }) => `${hex(address).padEnd(8)} ${text || "no instruction"}`;
  const rows = code.slice(at, at + CODE).map((it) => row(words(it), it.address === registers[0], false));
  return list("Instructions", rows);
}

function registers_of({ registers }, other) {
  const rows = REGISTERS.map((name, k) => {
    const value = k < 3 ? hex(registers[k]) : number(registers[k]), differs = !!other && other[k] !== registers[k];
    return row(element("b", {}, name), false, differs, element("span", {}, value));
  });
  const made = list("Registers", rows);
  made.classList.add("registers");
  return made;
}

function descriptors_of(pid) {
  const own = (app.view.files?.descriptors ?? []).filter((it) => it.pid === pid);
  const words = (it) => `${String(it.fd).padStart(2)}  ${rights_of(it)}  ${target_words(it)}`;
  if (!own.length) return element("p", { class: "dim" }, "No descriptor is open.");
  return list("Descriptors", own.map((it) => row(words(it), false, false)));
}

function memory_of({ memory: { at, bytes } }, other) {
  if (!bytes.length) return element("p", { class: "dim" }, `No page at ${hex(at)}.`);
  const rows = [], is_same_place = other?.memory?.at === at;
  for (let from = 0; from < bytes.length; from += IN_A_ROW) {
    const own = [...bytes.subarray(from, from + IN_A_ROW)], others = other?.memory?.bytes;
    const differs = is_same_place && own.some((byte, k) => others[from + k] !== byte);
    const letters = own.map((it) => (it > 31 && it < 127 ? String.fromCharCode(it) : "·")).join("");
    const words = own.map((it) => it.toString(16).padStart(2, "0")).join(" ");
    rows.push(row(`${hex(at + BigInt(from)).padEnd(10)}${words.padEnd(3 * IN_A_ROW)} ${letters}`, false, differs));
  }
  return list("Memory", rows);
}

/** How a process stands, in words. */
function state_words(told) {
  const { pid, ended } = told, process = process_of(pid);
  const how = ended?.is_fault ? ", by a fault" : ` with ${ended?.number}`;
  if (ended) return `as it ended at event ${grouped(ended.at)}${how}`;
  return process ? state_of(process, app.view.current)[1] : "";
}

function side_of(told, other) {
  const { pid, registers } = told, state = state_words(told);
  const name = program_name(told.program);
  const head = element(
    "h2", {}, element("span", {}, element("span", { class: "swatch", style: `background:${color_of(pid)}` }),
      `${pid} ${name}`, element("span", { class: "dim" }, ` ${state}`))
  );
  if (!registers) return [head, element("p", { class: "dim" }, `There is no process ${pid} at this place of the run.`)];
  return [
    head, ...source_of(told), element("h3", {}, "Instructions"), code_of(told), element("h3", {}, "Registers"),
    registers_of(told, other?.registers), element("h3", {}, "Descriptors"), descriptors_of(pid),
    element("h3", {}, "Memory"), memory_of(told, other),
  ];
}

// ---- to draw it

/** Fills the lists of processes and of pairs. */
function fill() {
  const { processes } = app.view, all = [...new Set([...processes.map((it) => it.pid), ...shown.pids])];
  const options = all.sort((a, b) => a - b).map((pid) => {
    const process = process_of(pid), name = process ? program_name(process.program) : "gone";
    return [pid, `${pid} ${name}`];
  });
  const found = pairs(), key = JSON.stringify([options, found]);
  if (fill.key !== key) {
    fill.key = key;
    for (const it of SIDES) {
      $(`beside-${it}`).replaceChildren(...options.map(([value, words]) => element("option", { value }, words)));
    }
    $("beside-pair").replaceChildren(
      element("option", { value: "" }, "choose .."),
      ...found.map(({ pids, words }) => element("option", { value: pids.join(",") }, `${pids.join(" and ")}: ${words}`))
    );
  }
  for (const it of SIDES) $(`beside-${it}`).value = shown.pids[it];
}

/** Numbers of 64 bits and arrays of them, as a text has them. */
const as_text = (_, it) => {
  if (typeof it === "bigint") return String(it);
  return it?.buffer instanceof ArrayBuffer ? [...it].join() : it;
};

function draw() {
  const { view } = app, told = view.beside;
  if (!shown.pids || !told || told.some((it, k) => it.pid !== shown.pids[k])) return;
  fill();
  for (const it of SIDES) {
    const [one, other] = [told[it], told[1 - it]], own = view.files?.descriptors.filter(({ pid }) => pid === one.pid);
    const key = JSON.stringify([one, other.registers, other.memory, own, state_words(one), app.booted.id], as_text);
    if (shown.told[it] === key) continue;
    shown.told[it] = key;
    $(`beside-side-${it}`).replaceChildren(...side_of(one, other));
  }
  write($("beside-place"), `after event ${grouped(view.at)}`);
}

export function start() {
  $("open-beside").addEventListener("click", () => {
    if (shown.pids) show_beside(null); else if (app.view?.whole) show_beside(first_two());
    if (shown.pids) $("beside").scrollIntoView({ block: "nearest" });
  });
  $("close-beside").addEventListener("click", () => { show_beside(null); $("open-beside").focus(); });
  for (const it of SIDES) {
    $(`beside-${it}`).addEventListener("change", ({ target }) => (
      show_beside(shown.pids.with(it, Number(target.value)), shown.at)
    ));
  }
  $("beside-pair").addEventListener("change", ({ target }) => {
    if (target.value) show_beside(target.value.split(",").map(Number), shown.at);
    target.value = "";
  });
  $("beside-at").addEventListener("change", ({ target }) => show_beside(shown.pids, target.value.trim() || "sp"));
  on("panels", draw);
  on("booted", () => {
    for (const it of SIDES) $(`beside-side-${it}`).replaceChildren();
    if (shown.pids) show_beside(null);
  });
}
