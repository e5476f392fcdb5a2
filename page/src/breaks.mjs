// Break points: those at lines stand with their files, and the others, at labels, addresses, calls and stores, with the
// work. Each belongs to a program, and counts while the machine has it. It has a switch, and may have a condition.
import { $, app, ask, element, on, say, tell } from "./app.mjs";
import { is_c, is_source } from "../../anywhere/machine/file_kinds.mjs";
import { nearest } from "../../anywhere/machine/line_stops.mjs";
import { start_of_line } from "../../anywhere/machine/source_places.mjs";
import { all_calls, call_name, call_number } from "../../anywhere/machine/calls.mjs";
import { hex } from "../../anywhere/machine/number_words.mjs";
import { condition_of } from "../../anywhere/machine/conditions.mjs";
import { touch } from "./works.mjs";

const ADDRESS = /^(0x[0-9a-f]+|\d+)$/i;

const place_of = (booted, program) => booted?.files.findIndex((it) => it.name === program) ?? -1;
const LINE = /:\d+$/; // as sh.c:12
const label_of = (booted, place, name) => (
  LINE.test(name) ? start_of_line(booted?.symbols[place], name)
    : booted?.symbols[place]?.names.find((it) => it.name === name)?.address ?? null
);

/** The address of a line of a file in a machine, which may have the file as it was before it was edited. */
function address_of_line(booted, file, { line, text }) {
  const place = booted?.files.findIndex((it) => it.from === file) ?? -1, had = booted?.files[place]?.text;
  if (had === undefined) return null;
  const there = had === file.text ? line : nearest(had.split("\n"), text, line);
  const symbols = booted.symbols[place], line_in_c = () => start_of_line(symbols, `${file.name}:${there}`);
  const address = symbols.lines.find((it) => it.line === there)?.start ?? line_in_c();
  return address === null ? null : { place, address };
}

/**
 * A break point as it is shown and as the worker takes it; `sent` is null while it doesn't count. `it` has its switch
 * and its condition, and `changed` is called when they have changed.
 */
function of_line(booted, file, stop) {
  const found = address_of_line(booted, file, stop), words = `${file.name}, line ${stop.line}`;
  const changed = () => tell("stops", file), name = `line ${stop.line} of ${file.name}`;
  return {
    it: stop, words, changed, sent: found && { kind: "address", address: found.address, program: found.place, name },
    gone: () => { file.stops = file.stops.filter((it) => it !== stop); changed(); },
  };
}

/** A break point of the work: `of` is the variable of which the address is watched, if it is one. */
function of_work(booted, it) {
  const { kind, name, program, of } = it, changed = () => { touch(); show(); };
  const gone = () => { app.work.breaks = app.work.breaks.filter((other) => other !== it); changed(); };
  if (kind === "call") {
    const number = number_of_call(name);
    return { it, words: `call ${call_name(number)}`, changed, sent: { kind, number, name, program: null }, gone };
  }
  const place = program === null ? null : place_of(booted, program);
  const address = ADDRESS.test(name) ? BigInt(name) : label_of(booted, place, name);
  const where = address === null || ADDRESS.test(name) ? "" : ` ${hex(address)}`;
  const what = of === undefined ? name : `${of}, ${name},`;
  const words = `${kind === "store" ? "store to" : "at"} ${what}${where}${program === null ? "" : ` in ${program}`}`;
  const sent = address === null || place === -1 ? null : { kind, address, name: of ?? name, program: place };
  return { it, words, changed, sent, gone };
}

const all = (booted) => [
  ...app.files.filter((it) => is_source(it) || is_c(it)).flatMap((file) => (file.stops ?? []).map((stop) => of_line(booted, file, stop))),
  ...app.work.breaks.map((it) => of_work(booted, it)),
];
/** Those that count in a machine, as the worker takes them. */
export const counting = (booted) => all(booted).flatMap(({ it, sent }) => (
  sent && !it.off ? { ...sent, condition: it.condition ?? "" } : []
));

/** Takes a condition that was written; one that can't be read is told, and that before stays. */
function take_condition({ it, changed }, field) {
  const condition = field.value.trim();
  try {
    condition_of(condition);
  } catch (error) {
    field.setAttribute("aria-invalid", "true");
    say(`This is no condition: ${error.message}. Join tests by &&.`);
    return;
  }
  if (condition) it.condition = condition; else delete it.condition;
  changed();
}

/** The row of a break point in the list: its switch, its condition, and what takes it away. */
function row(told) {
  const { it, words, sent, changed, gone } = told;
  const turn = ({ target }) => { if (target.checked) delete it.off; else it.off = true; changed(); };
  const on_off = element("input", {
    type: "checkbox", autocomplete: "off", "aria-label": `Stops: ${words}`, onchange: turn,
  });
  on_off.checked = !it.off;
  const field = element("input", {
    class: "mono", autocomplete: "off", placeholder: "a0 == 3", "aria-label": `Condition: ${words}`,
    onchange: () => take_condition(told, field),
  });
  field.value = it.condition ?? "";
  return element(
    "li", {},
    element("label", { class: sent && !it.off ? "" : "dim" }, on_off, ` ${words}`, sent ? "" : ": not in this machine"),
    element("button", { "aria-label": `Take away: ${words}`, onclick: gone }, "✕"),
    element("label", { class: "small" }, "only if ", field)
  );
}

/** Lists the break points, and sends those that count. */
function show() {
  const found = all(app.booted), list = $("break-list"), { activeElement } = document;
  const focused = list.contains(activeElement) ? activeElement.getAttribute("aria-label") : null;
  if (app.booted) ask("breaks", { list: counting(app.booted) });
  tell("stops shown");
  $("break-count").textContent = found.filter(({ it }) => !it.off).length || "";
  list.replaceChildren(...found.map(row));
  // What had the keys has them again.
  const named = (it) => it.getAttribute("aria-label") === focused;
  if (focused) [...list.querySelectorAll("[aria-label]")].find(named)?.focus();
}

const number_of_call = (name) => Number(call_number(name) ?? name);

/** The programs of the machine, by their places: first the one that is looked at. */
function places() {
  const { view } = app, looked_at = view?.ended?.program ?? view?.processes?.find((it) => it.pid === view.pid)?.program;
  return [...new Set([...(looked_at ?? null) === null ? [] : [looked_at], ...(app.booted?.files.keys() ?? [])])];
}

/** The break point that is asked for: {kind, name, program}; or words that say what is wrong. */
function meant(kind, name) {
  if (kind === "call") {
    return number_of_call(name) >= 0 ? { kind, name, program: null }
      : `No such call: ${name}. Write its name, as write, or its number`;
  }
  const place = places().find((it) => ADDRESS.test(name) || label_of(app.booted, it, name) !== null);
  if (place === undefined) return `No such label: ${name}. Write a label of a program, or an address, as 0x10`;
  return { kind, name, program: app.booted.files[place].name };
}

/** The lines in C of a program at which break points stand, as sh.c:12. */
export const stops_in = (program) => app.work.breaks.filter(
  (it) => it.kind === "address" && it.program === program && LINE.test(it.name)
).map((it) => it.name);

/** Whether a break point is of a kind, at a place of a program. */
const is_of = (it, kind, name, program) => it.kind === kind && it.name === name && it.program === program;

/** Takes away the break points of a kind at a place of a program, and sets this one, if there is one. */
function set_in_place(kind, name, program, it) {
  app.work.breaks = [...app.work.breaks.filter((other) => !is_of(other, kind, name, program)), ...(it ? [it] : [])];
  touch();
  show();
}

/** Sets a break point at a line in C of a program, or takes it away. */
export function toggle_stop(name, program) {
  const kind = "address", is_there = app.work.breaks.some((it) => is_of(it, kind, name, program));
  set_in_place(kind, name, program, is_there ? null : { kind, name, program });
}

/** Whether a break point stops before stores to an address of a program. */
export const is_watched = (name, program) => (
  app.work.breaks.some((it) => is_of(it, "store", name, program) && !it.off)
);

/** Watches the address of a variable of a program, or does so no more. */
export function toggle_watch(of, name, program) {
  const kind = "store";
  set_in_place(kind, name, program, is_watched(name, program) ? null : { kind, name, program, of });
}

function add() {
  const name = $("break-where").value.trim();
  if (!name) return;
  const it = meant($("break-kind").value, name);
  if (typeof it === "string") { say(it); return; }
  app.work.breaks = [...app.work.breaks, it];
  $("break-where").value = "";
  touch();
  show();
}

export function start() {
  $("break-add").addEventListener("click", add);
  $("break-where").addEventListener("keydown", (event) => { if (event.key === "Enter") add(); });
  on("booted", () => {
    $("labels").replaceChildren(
      ...app.symbols.flatMap((it) => it.names.map(({ name }) => element("option", { value: name }))),
      ...all_calls().map((name) => element("option", { value: name }))
    );
    show();
  });
  on("work", show);
  on("stops", () => { touch(); show(); });
}
