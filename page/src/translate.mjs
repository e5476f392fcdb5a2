// Translate: the bits of an address, the three entries of the page table that it leads to, and the physical address or
// what refuses it (RISC-V Privileged ISA, "Sv39: Page-Based 39-bit Virtual-Memory System", "Virtual Address Translation
// Process"); and the last trap.
import { $, app, ask, element, on } from "./app.mjs";
import { grouped, hex } from "../../anywhere/machine/number_words.mjs";
import { KIND } from "../../anywhere/machine/machine.mjs";
import { call_name } from "../../anywhere/machine/calls.mjs";
import { name_at } from "../../anywhere/machine/source_places.mjs";
import { address_meant, symbols_of } from "./instruction.mjs";
import { last_store } from "./happened.mjs";
import { REGISTERS } from "../../anywhere/machine/registers.mjs";

const PAGE = 4096n, FIRST = 0x80000n; // the physical page of frame 0: RAM begins at 0x80000000
const V = 1, R = 2, W = 4, X = 8, U = 16, A = 64, D = 128;
const FLAGS = [
  [D, "D", "was written"], [A, "A", "was accessed"], [32, "G", "is in all address spaces"],
  [U, "U", "user code may use it"],
  [X, "X", "execute"], [W, "W", "write"], [R, "R", "read"], [V, "V", "says something"],
];
/** What an access needs, and the cause of its page fault. */
const ACCESS = {
  fetch: { bit: X, name: "X", cause: 12 }, load: { bit: R, name: "R", cause: 13 },
  store: { bit: W, name: "W", cause: 15 },
};

/** An entry as the kernel writes it: of a table it has V alone, of a page V, A, D and the rights. */
const entry_of = (frame, flags) => ((FIRST + BigInt(frame)) << 10n) | BigInt(flags);
const physical = (frame) => (FIRST + BigInt(frame)) * PAGE;

/**
 * The three steps of the walk: {level, index, table, at, entry, flags, frame}; the last one has no entry if V is 0
 * there.
 */
function steps_of({ page, way, rights, frame }) {
  const indexes = [Math.floor(page / 262144) % 512, Math.floor(page / 512) % 512, page % 512];
  const tables = [way.root, way.middle, way.last], leads = [way.middle, way.last, null], found = [];
  for (let k = 0; k < 3 && tables[k] !== null; k++) {
    const table = tables[k], index = indexes[k], is_leaf = k === 2, to = is_leaf ? frame : leads[k];
    const flags = to === null ? 0 : is_leaf ? rights | A | D : V;
    const entry = to === null ? null : entry_of(to, flags);
    found.push({
      level: 2 - k, index, table, at: physical(table) + 8n * BigInt(index), entry, flags, frame: to, is_leaf,
    });
    if (to === null) break;
  }
  return found;
}

// sections of the Privileged ISA
const FORM = "Sv39: Addressing and Memory Protection", WALK = "Virtual Address Translation Process";
const MADE = { fetch: "executed", load: "read", store: "written" };
const PROMISED = " The page lies below the process's size: it was promised, and the kernel brings it when a load or a store first needs it, if frames are free.";

/** What refuses an access: {bit, words, section, level}; null if it is made. */
function refusal({ address, page, rights, size }, steps, access) {
  const { bit, name, cause } = ACCESS[access], last = steps.at(-1), fault = `a ${access} faults with cause ${cause}`;
  const of_bit = (letter, why) => (
    ({ bit: letter, level: 0, section: WALK, words: `${letter} is 0: ${why}, so ${fault}.` })
  );
  if (BigInt.asIntN(39, address) !== BigInt.asIntN(64, address)) {
    return {
      bit: "63..39", section: FORM,
      words: `Bits 63 to 39 aren't all equal to bit 38: ${fault}, and no table is looked at.`,
    };
  }
  if (!last || last.entry === null) {
    const promised = BigInt(page) * PAGE < size && access !== "fetch" ? PROMISED : "";
    const words = `V is 0 in entry ${last?.index} of this table: the entry says nothing, so the walk ends here, and ${fault}.${promised}`;
    return { bit: "V", level: last?.level, section: WALK, words };
  }
  if (!(rights & U)) return of_bit("U", "user code may not use this page (it is the guard page below the stack)");
  return rights & bit ? null : of_bit(name, `the page may not be ${MADE[access]}`);
}

// ---- what is drawn

const binary = (value, count) => value.toString(2).padStart(count, "0");

/** The bits of an address as 25 + 9 + 9 + 9 + 12. */
function bits_told(address, refused) {
  const part = (from, count) => (address >> BigInt(from)) & ((1n << BigInt(count)) - 1n);
  const parts = [
    ["63..39", 39, 25, "as bit 38"], ["38..30", 30, 9, "root"], ["29..21", 21, 9, "middle table"],
    ["20..12", 12, 9, "last table"], ["11..0", 0, 12, "offset"],
  ];
  const told = parts.map(([name, from, count, words], k) => {
    const value = part(from, count), is_zeros = value === 0n, is_ones = value === (1n << BigInt(count)) - 1n;
    const bits = k === 0 && is_zeros ? "0 .. 0" : k === 0 && is_ones ? "1 .. 1" : binary(value, count);
    return element("div", { role: "listitem", class: refused?.bit === name ? "bad" : "", title: words },
      element("span", { class: "dim" }, name), element("b", {}, bits), element(
        "span", {}, k === 0 ? "" : String(value)
      ), element("span", { class: "dim" }, words));
  });
  return element("div", { class: "parts mono", role: "list", "aria-label": "The bits of the address" }, ...told);
}

function flags_told(flags, refused) {
  const told = ([bit, letter, words]) => {
    const is_on = (flags & bit) !== 0;
    const names = [is_on ? "on" : "", refused?.bit === letter ? "refuses" : ""].join(" ").trim();
    return element("span", { class: names, title: `${letter} is ${is_on ? 1 : 0}: ${words}` }, is_on ? letter : "-");
  };
  return element("span", { class: "bits mono" }, ...FLAGS.map(told));
}

function step_told(it, refused) {
  const name = ["last table", "middle table", "root"][it.level], is_here = refused && refused.level === it.level;
  const cells = [
    element("td", {}, name, element("div", { class: "dim" }, `frame ${it.table}`)),
    element("td", { class: "number" }, String(it.index), element("div", { class: "dim mono" }, hex(it.at))),
    element("td", { class: "mono" }, it.entry === null ? "V is 0" : hex(it.entry)),
    element("td", {}, flags_told(it.flags, is_here ? refused : null)),
    it.frame === null ? element("td")
      : element("td", {}, `frame ${it.frame}`, element("div", { class: "dim mono" }, hex(physical(it.frame)))),
  ];
  return element("tr", { class: is_here ? "bad" : "" }, ...cells);
}

/** What comes of the walk: the physical address, or what refuses it. */
function end_told({ frame, address }, refused, access) {
  if (refused) {
    const is_many = refused.bit.includes(".");
    return element("p", { class: "fault", id: "translated" }, element(
      "b", {}, is_many ? `Bits ${refused.bit} refuse. ` : `Bit ${refused.bit} refuses. `
    ), refused.words,
      element("span", { class: "dim" }, ` (RISC-V Privileged ISA, “${refused.section}”)`));
  }
  const start = physical(frame), offset = address % PAGE;
  const may = { fetch: "execute", load: "read", store: "write" }[access];
  return element("p", { class: "made", id: "translated" }, element("b", { class: "mono" }, hex(start + offset)),
    ` is the physical address: ${hex(start)}, where frame ${frame} begins, and the offset ${hex(offset)}. User code may ${may} it.`);
}

function satp_told({ root }) {
  if (root === null) return element("p", { class: "dim" }, "satp is 0: there is no table.");
  const page = FIRST + BigInt(root);
  return element(
    "p", { class: "dim" }, "satp is ", element("span", { class: "mono" }, hex((8n << 60n) | page)),
    `: mode 8, which is Sv39, and the physical page ${hex(page)}, where the root lies.`
  );
}

function walk_told(told, access) {
  const steps = steps_of(told), refused = refusal(told, steps, access);
  const heads = ["table", "entry", "value", "flags", "leads to"];
  const table = element("table", { class: "walk" }, element(
    "thead", {}, element("tr", {}, ...heads.map((it, k) => element("th", { class: k === 1 ? "number" : "" }, it)))
  ),
    element("tbody", {}, ...steps.map((it) => step_told(it, refused))));
  return [
    bits_told(told.address, refused), satp_told(told.way), refused?.section === FORM ? "" : table,
    end_told(told, refused, access),
  ];
}

// ---- the trap

const CAUSES = {
  0: "Instruction address misaligned", 2: "Illegal instruction", 3: "Breakpoint", 4: "Load address misaligned",
  6: "Store address misaligned",
  8: "Environment call from U-mode", 12: "Instruction page fault", 13: "Load page fault", 15: "Store page fault",
};

/** The cause of a trap, and the value that stval has for it. */
function trap_values({ kind, number, pc, address }) {
  if (kind !== KIND.FAULT) return { cause: 8, value: 0n, why: "a call has none" };
  if (number === 12) return { cause: number, value: pc, why: "the address of the fetch" };
  if (address !== null) {
    const is_noted = number === 13 || number === 15;
    return {
      cause: number, value: address,
      why: `the address of the access${is_noted ? "" : ", which is no multiple of its size; this machine notes it for page faults alone"}`,
    };
  }
  return { cause: number, value: 0n, why: number === 0 ? "this machine notes no target" : "it has none here" };
}

function trap_told(trap) {
  if (!trap) return [element("p", { class: "dim" }, "No call and no fault of this process up to here.")];
  if (trap.is_killed) return [element("p", { class: "dim" }, "It ended without a trap: it was killed.")];
  const { cause, value, why } = trap_values(trap), place = name_at(symbols_of(app.view.pid), trap.pc);
  const what = trap.kind === KIND.FAULT ? "a fault" : trap.kind === KIND.EXIT ? "the call exit"
    : `the call ${call_name(trap.number)}`;
  const row = (name, number, words) => (
    element("tr", {}, element("th", {}, name), element("td", { class: "mono" }, number), element("td", {}, words))
  );
  const rows = [
    row("scause", String(cause), CAUSES[cause] ?? ""),
    row("sepc", hex(trap.pc), `the instruction that trapped${place ? ` <${place}>` : ""}`),
    row("stval", hex(value), why),
  ];
  return [element(
    "p", {}, `The last trap of this process: ${what}, at event ${grouped(trap.at)} `,
    element("button", { onclick: () => ask("go", { place: trap.at }) }, "Go there")
  ),
    element("table", { class: "trap" }, element("tbody", {}, ...rows))];
}

/** Where the registers of the process are. */
function registers_where(runs) {
  if (app.view.ended) return "The process has ended: so it was then, and its frames are given back since.";
  return runs ? "The process runs: its registers are in the hart, and are saved there when its turn ends."
    : "The process doesn't run: its registers lie there.";
}

function frame_told({ way, registers, pid }) {
  const runs = app.view.facts.current === pid && !app.view.ended;
  const start = way.trapframe === null ? "" : `, at ${hex(physical(way.trapframe))}`;
  const rows = [...registers].map((it, k) => `${String(8 * k).padStart(4)}  ${REGISTERS[k].padEnd(4)} ${hex(it)}`);
  const half = Math.ceil(rows.length / 2);
  const text = rows.slice(0, half).map((it, k) => `${it.padEnd(32)}${rows[k + half] ?? ""}`).join("\n");
  return [element(
    "p", {},
    `The trapframe is frame ${way.trapframe}${start}: the pc at byte 0, and register xi at byte 8i. ${registers_where(runs)}`
  ),
    element("details", { open: trap_open, ontoggle: (event) => { trap_open = event.target.open; } },
      element(
        "summary", {}, runs ? "as it would be saved now" : "its bytes, as words of 8"
      ), element("pre", { class: "mono" }, text))];
}

let drawn = "", trap_open = false, last = null;

/** All that a drawing shows, as a text: what is as it was isn't drawn anew. */
const key_of = (told, access) => JSON.stringify(
  [told, access, app.view.trap, app.view.facts.current, app.view.playing, app.view.ended !== null, app.booted.id],
  (_, it) => (typeof it === "bigint" ? String(it) : ArrayBuffer.isView(it) ? [...it].map(String) : it)
);

/** Says why there is nothing to show. */
function show_none(words, is_bad) {
  drawn = "";
  $("translate-told").replaceChildren(element("p", { class: is_bad ? "bad" : "dim" }, words));
}

const HOW = " The entries' values are put together of the frames and rights that the machine tells, in the form in which the kernel writes them: V alone for a table; V, A, D and the rights for a page.";

function draw() {
  const { view } = app;
  if (!view || $("translate").hidden) return;
  const text = $("translated-address").value.trim() || "pc", access = $("translated-access").value;
  const address = address_meant(text), told = view.translation;
  $("translated-address").setAttribute("aria-invalid", address === undefined ? "true" : "false");
  if (address !== undefined && address !== last) { last = address; ask("look", { translate: address }); }
  if (!view.registers || !told) { show_none("No process is there to be looked at."); return; }
  if (address === undefined) {
    show_none(`No address: ${text}. Write a number, as 0x2fe0, a register, as sp, or a label.`, true);
    return;
  }
  if (told.address !== address) return;
  const key = key_of(told, access);
  if (key === drawn) return;
  drawn = key;
  $("translate-told").replaceChildren(...walk_told(told, access),
    element(
      "p", {},
      element("button", { id: "stored-last", onclick: () => last_store(address, told.pid) }, "Who stored here last?"),
      element("span", { class: "dim" }, HOW)
    ),
    element("h3", {}, "The trap"), ...(view.playing ? [] : trap_told(view.trap)), ...frame_told(told));
}

/** Shows the translation of an address, by the page table of the process that is looked at. */
export function translate(text, access = $("translated-access").value) {
  $("translated-address").value = text;
  $("translated-access").value = access;
  last = null;
  globalThis.show_tab("translate");
  if (app.view) draw();
}

export function start() {
  on("panels", draw);
  on("tab", () => { drawn = ""; last = null; draw(); });
  for (const it of ["translated-address", "translated-access"]) {
    $(it).addEventListener("input", () => { last = null; draw(); });
  }
  on("translate", ({ text, access }) => translate(text, access));
  on("booted", () => { drawn = ""; last = null; $("translate-told").replaceChildren(); });
}
