// Follows links as the page does, by what reads them in the page and by the page's machine: for slides.mjs here, and
// for grading/links.mjs.
import { page_module } from "../anywhere/editor/page_module.mjs";
import { KIND, Machine } from "../anywhere/machine/machine.mjs";
import { Reach, way_of } from "../anywhere/machine/named_place.mjs";
import { Plan } from "../anywhere/machine/plan.mjs";
import { Run } from "../anywhere/machine/run.mjs";
import { link_of } from "../page/src/outside.mjs";

const AT_ONCE = 50; // ms of a search, until it is asked to go on

export class Follower {
  /** `examples` and `tabs`: those that a link may name. */
  constructor({ examples, tabs }) {
    this.machine = new Machine(page_module());
    this.run = new Run(this.machine);
    this.calls = [...this.machine.kernel_calls.values()];
    this.known = {
      examples, tabs, questions: [], is_shown: () => true, pages: () => [],
      is_place: (word) => way_of(word, this.calls) !== null,
    };
  }

  /** The words of a link; one that means nothing is an error. */
  words(link) {
    const { words, wrong } = link_of(`#${link}`, this.known);
    if (wrong.length) throw new Error(wrong.join(" "));
    return words;
  }

  /** A file of a link as the machine takes it. */
  file({ name, text, bytes }) {
    if (!name.endsWith(".s")) return { name, bytes: bytes ?? new TextEncoder().encode(text) };
    const made = this.machine.assemble(text);
    if (!made.file) throw new Error(`${name} isn't assembled: line ${made.line}, ${made.kind}`);
    return { name: name.replace(/\.s$/, ""), bytes: made.file };
  }

  /** Boots a machine of files. `keys` are bytes that are typed at the start. */
  boot({ frames, files, keys, ...order }) {
    const refused = this.run.boot({ frames, trace: 0 }, files.map((it) => this.file(it)));
    if (refused) throw new Error(`it isn't booted: ${JSON.stringify(refused)}`);
    this.plan = new Plan(this.run, order, keys);
  }

  /** Goes to a place, as a link names it; false if the run has none. */
  reaches(at) {
    const way = new Reach(this.run, this.plan, way_of(at, this.calls));
    while (!way.go(performance.now() + AT_ONCE)) { /* it goes on */ }
    return way.is_there;
  }

  /** What came last: {at, kind, pid, number, value}; the kind by its name. */
  last() {
    const { at, line } = this.run, it = line.outcome(line.find(at - 1));
    const [kind] = Object.entries(KIND).find(([, number]) => number === it.kind);
    return { ...it, at, kind };
  }
}
