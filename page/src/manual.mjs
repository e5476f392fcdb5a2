// The manual inside the page: its pages as HTML (build/manual.py makes them), the help of a panel, and links that lead
// to both.
import { $, app, element, on } from "./app.mjs";
import { words_of } from "./outside.mjs";
import { unpacked } from "./packed_texts.mjs";

const DATA = globalThis.PAGE_DATA;
const seen = []; // the pages that were shown before this one, with how far they were scrolled
let shown = null;

let unpacked_pages = null;
/**
 * The pages of the manual, as HTML, by their names; they are unpacked when one is asked for. A heading has its name as
 * `data-heading`: the page has elements of its own that are called so.
 */
export const pages = () => (
  unpacked_pages ??= JSON.parse(unpacked(DATA.manual).replace(/<(h\d) id=/g, "<$1 data-heading="))
);

/** The title of a page of the manual. */
const title_of_page = (name) => /<h1[^>]*>(.*?)<\/h1>/.exec(pages()[name])?.[1].replace(/<[^>]*>/g, "") ?? name;

/** The part of the page's own page of the manual that helps with a panel. */
export function help_of(heading) {
  const part = pages().page.split(/(?=<h2 )/).find(
    (it) => it.startsWith("<h2 ") && it.slice(it.indexOf(">") + 1).startsWith(`${heading}</h2>`)
  );
  return part ?? "";
}

/** Lists the pages, once. */
function list_pages() {
  const list = $("manual-page");
  if (!list.options.length) {
    list.append(
      ...Object.keys(pages()).map(
        (name) => element("option", { value: name }, name === "README" ? "all pages" : title_of_page(name))
      )
    );
  }
}

/** Shows a page of the manual, at a heading. */
export function open_manual(name, heading = "") {
  list_pages();
  const page = Object.hasOwn(pages(), name) ? name : "README", body = $("manual-body");
  if (shown && (shown.name !== page || $("manual").open)) seen.push({ ...shown, top: body.scrollTop });
  show({ name: page, heading });
}

function show({ name, heading = "", top = 0 }) {
  const body = $("manual-body");
  if (shown?.name !== name || !body.firstChild) body.innerHTML = pages()[name];
  shown = { name, heading };
  $("manual-page").value = name;
  $("manual-back").disabled = seen.length === 0;
  if (!$("manual").open) $("manual").showModal();
  const at = heading ? body.querySelector(`[data-heading="${CSS.escape(heading)}"]`) : null;
  if (at) at.scrollIntoView({ block: "start" }); else body.scrollTop = top;
}

/** Opens a panel's help. */
function open_help(heading) {
  const body = $("dialog").querySelector("div"), to = heading.toLowerCase().replace(/[^\w\- ]/g, "").replace(/ /g, "-");
  body.innerHTML = help_of(heading);
  body.append(element("p", {}, element("a", { href: `#manual=page&to=${to}` }, "This page of the manual")));
  if (!$("dialog").open) $("dialog").showModal();
}

/** What a link within the page to the manual names: {page, to}. */
function manual_place(hash) {
  const words = words_of(hash);
  return { page: words.get("manual"), to: words.get("to") ?? "" };
}

export function start() {
  $("manual-page").addEventListener("change", () => open_manual($("manual-page").value));
  $("manual-back").addEventListener("click", () => { const last = seen.pop(); if (last) show(last); });
  $("open-manual").addEventListener("click", () => open_manual(shown?.name ?? "README"));
  for (const it of document.querySelectorAll("[data-help]")) {
    it.addEventListener("click", () => open_help(it.dataset.help));
  }
  on("help", open_help);
  for (const it of ["dialog", "manual"]) {
    $(it).addEventListener("click", (event) => { if (event.target === $(it)) $(it).close(); });
  }
  // A link to the manual opens it over what is shown, and leaves the address as it is.
  addEventListener("click", (event) => {
    const link = event.target.closest?.('a[href^="#manual="]');
    if (!link || event.ctrlKey || event.metaKey || event.shiftKey) return;
    event.preventDefault();
    const { page, to } = manual_place(link.getAttribute("href"));
    if ($("dialog").open) $("dialog").close();
    open_manual(page, to);
  });
  app.open_manual = open_manual;
}
