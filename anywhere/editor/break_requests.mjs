// The break points that an editor has set, of each source and of each other kind. Those that are asked for before a
// machine is booted are looked up when one is; what is found then is told.
import { text_in } from "./arguments.mjs";
import { condition_of } from "../machine/conditions.mjs";
import { variable_in_condition } from "./variables.mjs";

const NOT_YET = "no machine is booted yet", NO_DEBUG = "this run is one without debugging";

export class BreakRequests {
  constructor() {
    this.lists = new Map();
    this.count = 0; // break points that were asked for
  }

  /**
   * Takes the break points of a kind, or of a source, in place of those that stood before. `find` tells of one where it
   * stands, {places, name, words}; `words`: why it stands nowhere. Answers what is told of each.
   */
  take(key, wanted, reason, find, machine) {
    const list = wanted.map((it) => ({ id: ++this.count, reason, wanted: it, find: () => find(it) }));
    list.forEach((it) => this.look_up(it, machine));
    this.lists.set(key, list);
    return list.map((it) => it.told);
  }

  /** Looks all of them up in a machine, {session, is_debugged}; what is told of those that stand now and didn't. */
  look_up_all(machine) {
    return [...this.lists.values()].flat().filter((it) => {
      const before = it.told.verified;
      this.look_up(it, machine);
      return it.told.verified !== before;
    }).map((it) => it.told);
  }

  /** Finds the places of one, and what is told of it. */
  look_up(it, machine) {
    const { places, words } = this.found(it, machine), { line } = it.wanted, is_there = places.length > 0;
    it.places = places;
    const more = is_there ? {} : { message: words };
    it.told = { id: it.id, verified: is_there, ...more, ...(line === undefined ? {} : { line }) };
  }

  /** What a word of a condition stands for that is no register: a variable of C, if a program has tables of such. */
  named(session, word) {
    const has_tables = session?.programs.files.some((_, place) => session.programs.tables_of(place) !== null) ?? true;
    return has_tables ? variable_in_condition(session, word) : undefined;
  }

  found({ id, wanted, find, reason }, { session, is_debugged }) {
    try {
      const [condition, hits] = ["condition", "hitCondition"].map((it) => text_in(wanted, it) ?? "");
      const holds = condition_of(condition, hits, (word) => this.named(session, word));
      if (!session || !is_debugged) return { places: [], words: session ? NO_DEBUG : NOT_YET };
      const { places, name, words } = find();
      const own = { kind: "address", program: null, id, reason, name, holds };
      return { places: places.map((it) => ({ ...own, ...it })), words };
    } catch (error) {
      return { places: [], words: error.message };
    }
  }

  /** The places of all, as a machine's break points. */
  get places() {
    return [...this.lists.values()].flat().flatMap((it) => it.places);
  }
}
