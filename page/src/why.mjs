// Why: each fault and each kill of the run, who sleeps on what and who could wake it, and who has ended without being
// waited for, in the words of the proved report (crates/xv_report).
import { $, app, ask, element, on, tell, write } from "./app.mjs";
import { grouped, hex } from "../../anywhere/machine/number_words.mjs";
import { last_event } from "./happened.mjs";
import { first_of } from "../../anywhere/machine/deadlock.mjs";
import { stuck, stuck_words } from "./stuck.mjs";
import * as editor from "./editor.mjs";

let drawn = "";

/**
 * Goes to a place, at which a process of this program is next, and opens its source, in which its line is marked then.
 */
function go_and_show(place, program) {
  ask("go", { place });
  $("follow").checked = true;
  ask("look", { follow: true });
  const booted = app.booted.files[program], file = app.files.find((it) => it === booted?.from && it.text !== undefined);
  if (!file) return;
  globalThis.show_tab("programs");
  if (editor.opened() !== file) { editor.open(file); tell("opened", file); tell("marked", file); }
}

/** Goes to the instruction of a fault, and shows the translation of the address that it wanted. */
function translate_fault({ at, pid, told }) {
  app.chosen = pid;
  $("follow").checked = false;
  ask("look", { pid, follow: false });
  ask("go", { place: at });
  tell("translate", {
    text: hex(told.cause === 12 ? told.registers[0] : told.address),
    access: told.cause === 12 ? "fetch" : told.cause === 15 || told.cause === 6 ? "store" : "load",
  });
}

/** Goes to the call in which a process sleeps, and to its line. */
async function see_sleep({ pid, program }) {
  globalThis.show_tab("why");
  const sleep = await last_event(app.view.at, { what: "sleeps", pid });
  if (!sleep) return;
  app.chosen = pid;
  go_and_show(sleep.at, program);
}

const texts = new Map(); // the reports of faults and kills, by their places
let texts_of = "", asked = new Set();

/**
 * The report of a fault or a kill, with what is known of its program's source: asked for once; till then as the view
 * has it, without lines.
 */
function report_of({ at, told }) {
  const key = `${app.booted.id} ${app.view.edits}`;
  if (texts_of !== key) { texts_of = key; texts.clear(); asked = new Set(); }
  if (!texts.has(at) && !asked.has(at)) {
    asked.add(at);
    ask("explain", { at, known: app.symbols[told.program]?.known() ?? {} });
  }
  return texts.get(at) ?? told.text ?? "";
}

/** A fault in the words of the report: what was wrong, then the calls that led there, then the registers. */
function fault_told(it) {
  const { told } = it, [first, ...rest] = report_of(it).split("\n"), is_register = (row) => /^  [a-z]\w* 0x/.test(row);
  const is_call = (row) => / call(ed|) /.test(row);
  return element("div", { class: "fault" },
    element("p", {}, element("b", {}, first)),
    ...rest.filter((row) => !is_register(row)).map(
      (row) => element("p", is_call(row) ? { class: "mono" } : {}, row.trim())
    ),
    element(
      "p", {}, element("button", { onclick: () => go_and_show(it.at, told.program) }, "Go to the instruction"), " ",
      told.address !== null || told.cause === 12
        ? element("button", { onclick: () => translate_fault(it) }, "Translate its address") : "",
      " ", element("span", { class: "dim" }, `event ${grouped(it.at)}`)
    ),
    element(
      "details", {}, element("summary", {}, "registers"),
      element("pre", {}, rest.filter(is_register).map((row) => row.trim()).join("\n"))
    ));
}

/** A kill in the words of the report. */
function kill_told(it) {
  return element("div", { class: "fault" },
    element("p", {}, element("b", {}, report_of(it))),
    element(
      "p", {}, element("button", { onclick: () => go_and_show(it.call, it.told.program) }, "Go to the call"), " ",
      element("span", { class: "dim" }, `event ${grouped(it.at)}`)
    ));
}

/**
 * A sleeper in the words of the report: in which call it sleeps and on what, and who could wake it; or one that nobody
 * has waited for.
 */
function sleeper_told(it) {
  const { wait } = it, [, words, more = ""] = /^(.*?)(?:[:;] (.*))?$/.exec(wait ?? "");
  return element(
    "div", { class: "sleeper" }, element("div", {}, element("b", {}, words)), more ? element("div", {}, more) : null,
    it.lives ? element("button", { onclick: () => see_sleep(it) }, "Go to the call") : null
  );
}

/** The faults and kills up to here, the last first. */
function ends_before(at) {
  return [...app.faults, ...app.kills].filter((it) => it.at < at).sort((a, b) => b.at - a.at).slice(0, 30);
}

function draw() {
  const { view } = app, sleepers = view.processes.filter((it) => (it.lives ? it.asleep : !view.facts.halted));
  const list = stuck(), gone = ends_before(view.at);
  const told = JSON.stringify([
    list?.map((it) => it.pid), gone.map((it) => [it.at, report_of(it)]), sleepers.map((it) => it.wait),
  ]);
  if (told === drawn) return;
  drawn = told;
  $("why-told").replaceChildren(
    ...(
      list ? [
        element(
          "p", { class: "deadlock", role: "status" },
          `${stuck_words(list)[0].toUpperCase()}${stuck_words(list).slice(1)}. No key and no tick can wake any of them: only another process could, and none goes on.`
        ),
      ] : []
    ),
    ...(
      gone.length ? gone.map((it) => (it.by ? kill_told(it) : fault_told(it)))
        : [element("p", { class: "dim" }, "No process has faulted or was killed up to here.")]
    ),
    element("h3", {}, "Who sleeps on what, and who wasn't waited for"),
    ...(sleepers.length ? sleepers.map(sleeper_told) : [element("p", { class: "dim" }, "Nobody sleeps.")]));
}

export function start() {
  on("panels", () => {
    const count = app.faults.filter((it) => it.at < app.view.at).length, badge = $("why-count");
    const words = stuck() ? "nobody can go on" : "";
    write(badge, [count ? String(count) : "", words ? "!" : ""].filter((it) => it).join(" "));
    badge.title = [count ? `${count} fault${count > 1 ? "s" : ""}` : "", words].filter((it) => it).join(", ");
    if (badge.title) badge.setAttribute("aria-label", badge.title); else badge.removeAttribute("aria-label");
    if (!$("why").hidden) draw();
  });
  on("explained", ({ at, edits, text }) => {
    if (texts_of === `${app.booted.id} ${edits}`) { texts.set(at, text); if (app.view && !$("why").hidden) draw(); }
  });
  on("booted", () => { drawn = ""; $("why-told").replaceChildren(); });
  on("see stuck", () => { const list = stuck(); if (list) see_sleep(first_of(list)); });
}
