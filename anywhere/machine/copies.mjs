// Copies of a machine along its run, by which the run goes back fast. Some stand over the whole run, so far apart that
// a replay from one to the next takes some tens of milliseconds, and further where they would be too many. One more
// stands a little before the place to which the run went last. Memory that is used first costs the host four times as
// much as memory that was used before: so the rooms of copies that are given up are kept, and taken again.
const MOST_BYTES = 256 * 1024 * 1024;
// Instructions, or what takes as long: some 70 ms by a module that makes 150 million a second.
const FIRST_SPACING = 10000000;
// Rooms that are ready while the machine waits: one for a copy along the run, and one for that near a place.
const READY = 2;

export class Copies {
  constructor(machine) {
    this.machine = machine;
    this.along = [];
    this.near = null;
    this.free = [];
  }

  /** Begins anew, with a copy of the machine as it was booted. `spacing` is what a replay between two copies costs. */
  begin(spacing = FIRST_SPACING) {
    this.cut(-1);
    this.spacing = spacing;
    this.along.push(this.copy(0, 0));
    this.due = spacing;
  }

  /** How many bytes there are for copies. */
  get bytes() {
    const rooms = [...this.along.map((it) => it.room), ...this.free];
    return rooms.reduce((sum, it) => sum + it.length, this.near === null ? 0 : this.near.room.length);
  }

  /**
   * How many copies may stand along the run: beside them there are one near a place, and one where `look` comes back
   * to.
   */
  get most() {
    return Math.max(3, Math.min(32, Math.floor(MOST_BYTES / room_for(this.machine.memory().length)) - 2));
  }

  /** A room for so many bytes. One that is much too large, or too small, is let go. */
  room(length) {
    this.free = this.free.filter((it) => it.length >= length && it.length <= 2 * length);
    return this.free.pop() ?? new Uint8Array(room_for(length));
  }

  /** A copy of the machine as it stands, behind so many events, to which a replay from the first costs so much. */
  copy(at, cost) {
    const memory = this.machine.memory(), room = this.room(memory.length);
    room.set(memory);
    return { at, cost, room, length: memory.length };
  }

  /** Gives a copy up: its room is free. */
  give_up(copy) {
    this.free.push(copy.room);
  }

  /** Keeps a copy along the run, if a replay from the last one would cost too much. */
  keep(at, cost) {
    if (cost < this.due) return;
    if (this.along.length >= this.most) this.thin();
    if (cost >= this.due) this.along.push(this.copy(at, cost));
    this.due = this.along.at(-1).cost + this.spacing;
  }

  /** Gives up each second copy: from now on they stand twice as far apart. */
  thin() {
    this.along.filter((_, k) => k % 2 === 1).forEach((it) => this.give_up(it));
    this.along = this.along.filter((_, k) => k % 2 === 0);
    this.spacing *= 2;
    this.due = this.along.at(-1).cost + this.spacing;
  }

  /** Keeps the machine as it stands in place of the copy that was near a place before. */
  keep_near(at) {
    if (this.near !== null) this.give_up(this.near);
    this.near = this.copy(at, 0);
  }

  /** The last copy that isn't behind a place. */
  before(place) {
    const found = this.along.findLast((it) => it.at <= place), { near } = this;
    return near !== null && near.at <= place && near.at > found.at ? near : found;
  }

  /** Gives up the copies behind a place. */
  cut(place) {
    while (this.along.length && this.along.at(-1).at > place) this.give_up(this.along.pop());
    if (this.along.length) this.due = this.along.at(-1).cost + this.spacing;
    if (this.near === null || this.near.at <= place) return;
    this.give_up(this.near);
    this.near = null;
  }

  /** Makes a room ready for a copy that may be wanted, while there is nothing else to do: its memory is used once. */
  prepare() {
    const { length } = this.machine.memory();
    if (this.free.length >= READY || this.along.length >= this.most) return;
    this.free.push(new Uint8Array(room_for(length)).fill(0));
  }
}

/** How large a room is that is made for so many bytes: a module's memory grows little by little. */
function room_for(length) {
  return length + (length >> 4);
}
