// How many instructions each process has made, up to a place of a run.
import { is_made } from "./record.mjs";

export class InstructionCounts {
  /** At the beginning of a record; `edits` tells which one it is. */
  constructor(edits = 0) {
    this.edits = edits;
    this.at = 0;
    this.by = new Map();
  }

  /**
   * Goes to a place of the record, forth or back: what lies between is added up, or taken away; whole blocks by their
   * sums.
   */
  go(line, to) {
    const sign = to > this.at ? 1 : -1;
    while (this.at !== to) {
      const number = line.number_of(sign > 0 ? this.at : this.at - 1);
      const ends = [line.start(number), line.end_of_block(number)], [begin, end] = sign > 0 ? ends : ends.reverse();
      if (line.over[number] && this.at === begin && sign * (to - end) >= 0) {
        const { pids, made } = line.over[number];
        pids.forEach((pid, k) => this.add(pid, sign * made[k]));
        this.at = end;
      } else this.within(line, sign, sign * (to - end) > 0 ? end : to);
    }
  }

  /** Goes to a place of the same block, by its stretches. */
  within(line, sign, to) {
    for (let k = line.find(sign > 0 ? this.at : this.at - 1); this.at !== to; k += sign) {
      const end = sign > 0 ? Math.min(line.end_of(k), to) : Math.max(line.at(k), to);
      if (is_made(line.kind(k))) this.add(line.pid(k), end - this.at);
      this.at = end;
    }
  }

  add(pid, count) { this.by.set(pid, this.of(pid) + count); }

  of(pid) { return this.by.get(pid) ?? 0; }
}
