// What the kernel has of a process, as variables of an editor.
import { call_name } from "../machine/calls.mjs";
import { files_of, pages_of } from "../machine/machine_views.mjs";
import { hex } from "../machine/number_words.mjs";

const KINDS = ["", "console", "a program's file", "a pipe's read end", "a pipe's write end"];
const LETTERS = [[2, "R"], [4, "W"], [8, "X"], [16, "U"]];
const PAGE_BYTES = 4096n, MOST_PAGES = 1000;

const plain = (name, value, more = {}) => ({ name, value: String(value), variablesReference: 0, ...more });

/** What a process does: it runs, may run, sleeps in a call, or has ended. */
export function state_words({ machine, run }, pid) {
  const process = machine.process(pid);
  if (!process) return "is gone";
  if (!process.lives) return `has ended with ${process.status}`;
  if (run.current === pid) return "runs";
  return process.asleep ? `sleeps in ${call_name(process.call?.number ?? 0)}` : "may run";
}

function descriptor_words(machine, programs, it) {
  const how = [it.read && "read", it.write && "write"].filter(Boolean).join(", ");
  if (it.kind === 2) return `${programs.files[it.program]?.name ?? "a file"} at ${it.offset} (${how})`;
  const pipe = it.kind > 2 ? machine.pipe(it.frame) : null;
  const held = pipe ? `: ${pipe.bytes} bytes, ${pipe.readers} readers, ${pipe.writers} writers` : "";
  return `${KINDS[it.kind]}${held} (${how})`;
}

/** The variables of the scope `Kernel`; `handle` keeps a list that is told when it is opened. */
export function kernel_variables(session, pid, handle) {
  const { machine, run, programs } = session, process = machine.process(pid);
  if (!process) return [plain("process", `${pid} is gone`)];
  const { frames } = run.config, facts = machine.facts();
  const { descriptors } = files_of(machine, [process]);
  const pages = () => pages_of(machine, pid, frames).found.slice(0, MOST_PAGES);
  const told_of = (it) => plain(String(it.fd), descriptor_words(machine, programs, it));
  const page_of = ({ page, rights, frame }) => {
    const letters = LETTERS.map(([bit, letter]) => (rights & bit ? letter : "-")).join("");
    const address = hex(BigInt(page) * PAGE_BYTES);
    return plain(address, `${letters} in frame ${frame}`, { memoryReference: address });
  };
  const list = (name, value, tell) => ({ name, value, variablesReference: handle(tell) });
  const wait = process.asleep ? [plain("waits", (machine.wait_text(pid) ?? "").split("\n")[0])] : [];
  return [
    plain("state", state_words(session, pid)), ...wait,
    plain("program", programs.files[run.program_of(pid)]?.name ?? ""), plain("parent", process.parent || "none"),
    plain("killed", process.marked ? "yes: it ends at its next step" : "no"),
    list("descriptors", `${descriptors.length} in use`, () => descriptors.map(told_of)),
    list("pages", `${machine.size(pid) ?? 0n} bytes`, () => pages().map(page_of)),
    plain("free frames", `${facts.free} of ${frames}`), plain("clock", facts.clock),
    plain("event", `${run.at} of ${run.end}`),
  ];
}
