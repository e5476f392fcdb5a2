// Descriptors of each process, the pipes with who holds which end and what is in them, and the console's three lists.
import { $, app, color_of, element, on, program_name, shown_bytes } from "./app.mjs";
import { opened_by } from "./happened.mjs";

/** What a descriptor may be used for, as `r-`. */
export const rights_of = ({ read, write }) => `${read ? "r" : "-"}${write ? "w" : "-"}`;

/** What a descriptor names, in words. */
export function target_words(it) {
  if (it.kind === 1) return "the console";
  if (it.kind === 2) return `file ${program_name(it.program)}, next byte ${it.offset}`;
  return `the ${it.kind === 3 ? "read" : "write"} end of the pipe in frame ${it.frame}`;
}

function held(pipe, kind, list) {
  const holders = list.filter((it) => it.frame === pipe.frame && it.kind === kind);
  if (!holders.length) return "nobody";
  return holders.map((it) => `${it.pid} (descriptor ${it.fd})`).join(", ");
}

const LISTS = [
  ["may be read", "typed, and committed by a line's end or Ctrl-D"],
  ["may be taken back", "typed, the line that is open"], ["waits to be sent", "written by programs"],
];

let drawn = "";
function draw() {
  const { files, processes } = app.view;
  if (!files) return;
  const told = JSON.stringify([
    files, processes.map(({ pid, lives, program }) => [pid, lives, program_name(program), color_of(pid)]),
  ]);
  if (told === drawn) return;
  drawn = told;
  const rows = [];
  for (const { pid, lives, program } of processes) {
    if (!lives) continue;
    const own = files.descriptors.filter((it) => it.pid === pid);
    if (!own.length) {
      rows.push(
        element(
          "tr", {}, element("td", {}, `${pid} ${program_name(program)}`),
          element("td", { colspan: 2, class: "dim" }, "no descriptor is open")
        )
      );
    }
    own.forEach(
      (it, k) => rows.push(
        element(
          "tr", {},
          element(
            "td", {},
            k ? "" : element(
              "span", {}, element("span", { class: "swatch", style: `background:${color_of(pid)}` }),
              `${pid} ${program_name(program)}`
            )
          ),
          element("td", { class: "number" }, String(it.fd)),
          element(
            "td", {}, target_words(it), element("span", { class: "dim" }, ` ${rights_of(it)} `),
            element(
              "button",
              { class: "slight", title: "Goes back to the call that opened it", onclick: () => opened_by(pid, it.fd) },
              "who opened it?"
            )
          )
        )
      )
    );
  }
  const pipes = files.pipes.map((pipe) => element("div", { class: "sleeper" }, element(
    "div", {}, element("b", {}, `the pipe in frame ${pipe.frame}`), ` · ${pipe.bytes} of 2048 bytes`
  ),
    element("div", {}, `read end: ${held(pipe, 3, files.descriptors)}`), element(
      "div", {}, `write end: ${held(pipe, 4, files.descriptors)}`
    ),
    pipe.bytes ? element("code", { class: "bytes" }, shown_bytes(pipe.text))
      : element("span", { class: "dim" }, "it is empty")));
  $("opened-told").replaceChildren(
    element(
      "table", {},
      element(
        "thead", {},
        element(
          "tr", {}, element("th", {}, "process"), element("th", { class: "number" }, "descriptor"),
          element("th", {}, "names")
        )
      ),
      element("tbody", {}, ...rows)
    ),
    element("h3", {}, `Pipes (${pipes.length})`), ...(
      pipes.length ? pipes : [element("p", { class: "dim" }, "There is no pipe.")]
    ),
    element("h3", {}, "Console"), element(
      "table", {},
      element(
        "tbody", {},
        ...LISTS.map(
          ([name, words], k) => element(
            "tr", {}, element("td", { title: words }, name),
            element("td", {}, element("code", { class: "bytes" }, shown_bytes(files.console[k]) || " ")),
            element("td", { class: "number" }, `${files.console[k].length} bytes`)
          )
        )
      )
    ));
}

export function start() {
  on("panels", () => { if (!$("opened").hidden) draw(); });
  on("booted", () => { drawn = ""; $("opened-told").replaceChildren(); });
}
