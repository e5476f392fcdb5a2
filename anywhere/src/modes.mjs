// What xv does by its words: which program runs them, and how. The modes may stand anywhere before the word `--`.
import { isatty } from "node:tty";
import { REFUSED, modules, tell_version } from "./about.mjs";
import { module_of, run } from "./program.mjs";
import { looked_at } from "./refusals.mjs";
import { write_all } from "./streams.mjs";
import {
  KINDS, MODES, as_taken, help, options_of, own_words, parts_of, rows_of, said, takes, words_of,
} from "./words.mjs";

const OWN = rows_of("own");

const say = (text) => write_all(2, `xv: ${text}\n`);

/** Says a text of the table, and gives its status. */
function tell({ text, status: ended }) {
  say(text);
  return ended;
}

/** How the words of a kind are run, by what the table says of it. What only some runs need is read late. */
const WAYS = {
  plain: (name, words) => run(module_of(name), name, words),
  lines: async (_, words) => (await import("./reports.mjs")).why(words),
  picture: async (_, words) => (await import("./reports.mjs")).picture(words),
  keys: async (_, words) => (await import("./terminal.mjs")).at_terminal(words),
  prompt: async (_, words) => (await import("./terminal.mjs")).debug(words),
  gdb: async (_, words, given) => (await import("./gdb.mjs")).gdb(words, given, tell),
};

/** What xv answers itself, and its status; or the words that are for a program. */
async function answered(words) {
  switch (words[0]?.toString()) {
    case undefined:
      write_all(2, help());
      return REFUSED;
    case "--help":
    case "-h":
      write_all(1, help());
      return 0;
    case "--status":
      say(modules().text);
      return 0;
    case "--version":
      tell_version("Nektavoly");
      write_all(1, `${modules().text}\n`);
      return 0;
    case "--dap": // it takes no words: the editor sends them
      return words.length > 1 ? tell(said("no-value", "--dap")) : (await import("../editor/main.mjs")).main("xv");
    case "--cc": case "--run": return (await import("./c_compiler.mjs")).compile_by(...words.map(String));
    case "--check": return (await import("./marking/check.mjs")).check(...words.slice(1).map(String));
    default: return words;
  }
}

/** The one mode that these make, and those that are options of it; or the two that don't go together. */
function one_of(modes) {
  let mode, option;
  for (const it of modes) {
    if (mode === undefined || it === mode) mode = it;
    else if (takes(mode, it)) option = it;
    else if (takes(it, mode)) [mode, option] = [it, mode];
    else return { clash: [it, mode] };
  }
  return { mode, option };
}

/**
 * The kind of words without a mode: options that one of both alone takes tell it, and else whether standard input is a
 * terminal.
 */
function kind_of(parts) {
  const asks_for = (kind, other) => options_of(parts).some(({ name }) => takes(kind, name) && !takes(other, name));
  if (asks_for("run", "terminal")) return "run";
  return isatty(0) || asks_for("terminal", "run") ? "terminal" : "run";
}

/** Does what the words of this process ask for, and gives the exit status. */
export async function main() {
  const words = await answered(as_taken(own_words()));
  if (typeof words === "number") return words;
  const all = parts_of(words), is_mode = ({ kind, word }) => kind === "option" && MODES.includes(String(word));
  const foreign = options_of(all).find(({ name }) => OWN.get(name) === "kit");
  if (foreign) return tell(said("of-the-kit", foreign.name));
  const { mode, option, clash } = one_of(all.filter(is_mode).map(({ word }) => String(word)));
  if (clash) return tell(said("two-modes", ...clash));
  const known = modules();
  if (known.status !== 0) return tell(known);
  if (known.warning) say(known.warning);
  const given = [...(option ? [{ kind: "option", word: option }] : []), ...all.filter((part) => !is_mode(part))];
  const kind = mode ?? kind_of(given);
  const { parts, status: refused } = looked_at(kind, given, say);
  if (!parts) return refused;
  const { program, how } = KINDS.get(kind);
  return WAYS[how](program, words_of(parts), given);
}
