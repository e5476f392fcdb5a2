// The field by which one goes to a place of the run: the number of events, as `--at` of other tools has it, or a place
// that a link may name, as `fork.2`.
import { $, app, on, say } from "./app.mjs";
import { grouped } from "../../anywhere/machine/number_words.mjs";
import { all_calls } from "../../anywhere/machine/calls.mjs";
import { way_of } from "../../anywhere/machine/named_place.mjs";
import { reach } from "./place_links.mjs";

const PLACES = "an event's number, or as fork, fork.2, turn.3, fault, end, asleep, last";

/** Says whether what stands in the field is a place. */
function mark(is_wrong) {
  $("go-to-place").setAttribute("aria-invalid", is_wrong ? "true" : "false");
}

/** Goes where the field says. */
async function go() {
  const asked = $("go-to-place").value.trim(), at = asked.replace(/(?<=\d)[,. ](?=\d{3}\b)/g, "");
  if (!app.booted || !asked) return;
  const is_place = way_of(at, all_calls()) !== null;
  mark(!is_place);
  if (!is_place) { say(`${asked} is no place of a run: write ${PLACES}`); return; }
  if (await reach(at)) say(`Here is event ${grouped(app.view.at)} of ${grouped(app.view.end)}`);
  else say(`The run has no ${asked}: it ends at event ${grouped(app.view.end)}`);
}

export function start() {
  $("go-to").addEventListener("submit", (event) => { event.preventDefault(); go(); });
  $("go-to-place").addEventListener("input", () => mark(false));
  on("booted", () => mark(false));
}
