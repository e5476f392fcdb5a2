// What the browser keeps for the page, in a database of its own (IndexedDB): values by their names, and runs. They are
// read once, when the page begins; from then on a value is at hand at once, and what is kept is written a moment later.
// A value that another tab has changed since is never written over: whoever keeps it is told. What localStorage had of
// an earlier page is taken over once.
const DATABASE = "nektavoly", VALUES = "values", RUNS = "runs";
const PREFIX = "nektavoly "; // of the names in localStorage and sessionStorage
// Since when not all is kept. It has its room from the beginning on: so it can be noted when all else is full.
const MARK = `${PREFIX}not kept`, MARK_LETTERS = 40;
const ASIDE = `${PREFIX}aside `; // what was laid aside as a page went
const MOST_RUNS = 50;
const AGAIN = 10000; // ms until what wasn't kept is tried again
const MOST_ASIDE = 1 << 20; // letters of the events of a run that is laid aside
const PATIENCE = 15000; // ms for the database to be read; then the page begins without it, and takes it when it comes

let opening = null; // the database, once it is opened
const values = new Map(); // by their names, as this tab has them; null: it is forgotten
const versions = new Map(); // of these values, as this tab has read or written them last
const waiting = new Set(); // the names of values that aren't written yet
const writing = new Map(); // of those that are being written the versions that they get, by their names
const state = { is_kept: true, why: "", since: 0 };
const failures = new Map(); // of the parts that aren't kept, values and runs: why
const hearers = { state: () => {}, again: () => {}, conflicts: [] };
let retry = 0;
let is_all_aside = true; // whether all that isn't kept is laid aside

/** Does something with a storage of the browser; null where it refuses. */
function attempt(kind, action) {
  try { return action(globalThis[kind]); } catch { return null; }
}

const new_version = () => `${Date.now().toString(36)}-${Math.random().toString(36).slice(2)}`;
export const new_id = new_version;
export const owner = new_id(); // of the runs that this page goes on with

// ---- the database

/** What a request answers. */
const answer_of = (request) => new Promise((done, fail) => {
  request.onsuccess = () => done(request.result);
  request.onerror = () => fail(request.error);
});

function open() {
  return new Promise((done, fail) => {
    const request = indexedDB.open(DATABASE, 1);
    request.onupgradeneeded = () => {
      request.result.createObjectStore(VALUES, { keyPath: "name" });
      request.result.createObjectStore(RUNS, { keyPath: "id" }).createIndex("when", "when");
    };
    request.onsuccess = () => done(request.result);
    request.onerror = () => fail(request.error);
  });
}

/** The database. It is opened again if the browser has closed it, as when its data was cleared. */
function database() {
  opening ??= open().then((it) => {
    it.onversionchange = () => { it.close(); opening = null; };
    it.onclose = () => { opening = null; };
    return it;
  });
  opening.catch(() => { opening = null; });
  return opening;
}

/** Does something within a transaction, and waits until all of it is kept. */
async function transaction(stores, mode, action) {
  const opened = await database();
  return new Promise((done, fail) => {
    const it = opened.transaction(stores, mode);
    let told;
    it.oncomplete = () => done(told);
    it.onabort = () => fail(it.error ?? new Error("it was aborted"));
    const give_up = (error) => {
      fail(error);
      try { it.abort(); } catch { /* it is over */ }
    };
    action(it).then((answer) => { told = answer; }, give_up);
  });
}

// ---- whether all is kept

/** Tells that a part, values or runs, is kept. */
function note_kept(part) {
  failures.delete(part);
  if (failures.size) return;
  Object.assign(state, { is_kept: true, why: "", since: 0 });
  is_all_aside = true;
  take_mark_away();
  hearers.state(state);
}

function take_mark_away() {
  attempt("localStorage", (it) => it.setItem(MARK, "".padEnd(MARK_LETTERS)));
  attempt("sessionStorage", (it) => it.removeItem(MARK));
}

/** Tells that a part isn't kept. A while later all that waits is tried again. */
function note_not_kept(part, error) {
  const is_full = error?.name === "QuotaExceededError";
  const why = is_full ? "its room for this page is full" : `it refuses (${error?.message ?? error})`;
  failures.set(part, why);
  Object.assign(state, { is_kept: false, why, since: state.since || Date.now() });
  const since = String(state.since).padEnd(MARK_LETTERS);
  for (const kind of ["localStorage", "sessionStorage"]) attempt(kind, (it) => it.setItem(MARK, since));
  hearers.state(state);
  clearTimeout(retry);
  retry = setTimeout(() => { write_all(); hearers.again(); }, AGAIN);
}

export const kept_state = () => state;
export const on_state = (call) => { hearers.state = call; };
/** Calls whenever what isn't kept is to be tried again. */
export const on_again = (call) => { hearers.again = call; };

/** Since when, in ms, what was done last time wasn't kept; 0: all was. */
function last_not_kept() {
  const marks = ["localStorage", "sessionStorage"].map((kind) => attempt(kind, (it) => it.getItem(MARK)));
  return Math.max(...marks.map((it) => Number(it?.trim() || 0) || 0));
}

// ---- values

/**
 * Calls with the name of a value that another tab has changed since this one read it, and with what this tab wanted to
 * keep: that isn't written, and `kept` tells the other tab's.
 */
export const on_conflict = (call) => { hearers.conflicts.push(call); };

/** Writes one value; what stands there, if another tab has changed it: then nothing is written. */
async function write_one(store, name, value, version) {
  const there = await answer_of(store.get(name));
  if (there && there.version !== versions.get(name)) return there;
  await answer_of(value === null ? store.delete(name) : store.put({ name, value, version }));
  return null;
}

/** Writes the values of these names, all or none. What this tab knows of them is changed once they are kept. */
async function write_these(names, version) {
  const conflicts = [], own = names.map((name) => [name, values.get(name) ?? null]);
  await transaction([VALUES], "readwrite", async (it) => {
    for (const [name, value] of own) {
      const there = await write_one(it.objectStore(VALUES), name, value, version);
      if (there) conflicts.push([there, value]);
    }
  });
  for (const name of names) versions.set(name, version);
  for (const [there, wanted] of conflicts) take_other(there, wanted);
}

/** Another tab has changed a value: its own is what stands there, and whoever keeps it here is told. */
function take_other({ name, value, version }, wanted) {
  const own = values.get(name) ?? wanted;
  values.set(name, value);
  versions.set(name, version);
  waiting.delete(name);
  for (const call of hearers.conflicts) call(name, own);
}

let written = Promise.resolve(); // what waits is written one after another

/** Writes what waits, after what is being written. */
function write_all() {
  written = written.then(write_waiting);
  return written;
}

async function write_waiting() {
  while (waiting.size) {
    const names = [...waiting], version = new_version();
    for (const name of names) writing.set(name, version);
    waiting.clear();
    try {
      await write_these(names, version);
      writing.clear();
      if (!waiting.size) values_are_kept();
    } catch (error) {
      writing.clear();
      for (const name of names) waiting.add(name);
      note_not_kept("values", error);
      return;
    }
  }
}

/** All values are kept: those that were laid aside, too. */
function values_are_kept() {
  for (const key of [...taken.splice(0), `${ASIDE}values ${owner}`]) remove_aside(key);
  note_kept("values");
}

export const kept = (name) => values.get(name) ?? null;

export function keep(name, value) {
  values.set(name, value);
  waiting.add(name);
  write_all();
}

export function forget(name) {
  if (kept(name) !== null) keep(name, null);
}

/** The names of what is kept that begin so. */
export function names_kept(beginning) {
  return [...values.keys()].filter((it) => it.startsWith(beginning) && kept(it) !== null);
}

// ---- this tab alone

export function keep_here(name, value) {
  const is_kept = attempt("sessionStorage", (it) => { it.setItem(PREFIX + name, JSON.stringify(value)); return true; });
  // What was kept before is old.
  if (!is_kept) attempt("sessionStorage", (it) => it.removeItem(PREFIX + name));
}
export const kept_here = (name) => attempt("sessionStorage", (it) => JSON.parse(it.getItem(PREFIX + name)));

// ---- what the database has no time for, as the page goes: it is laid aside, and written when the page begins anew

const taken = []; // the keys of values that were laid aside, which this page has taken and not yet written
const taken_runs = new Map(); // the same of runs that it goes on with, by their numbers

/** Lays a run aside, if there is one, and the values that aren't written yet. */
export function lay_aside(run) {
  const names = [...new Set([...writing.keys(), ...waiting])];
  const own = names.map((name) => [name, kept(name), versions.get(name) ?? "", writing.get(name) ?? ""]);
  if (own.length && put_aside(`values ${owner}`, { values: own })) for (const key of taken.splice(0)) remove_aside(key);
  if (run) lay_run_aside(run);
  // What isn't in the database is found by the next page all the same.
  if (is_all_aside) take_mark_away();
}

const key_aside = ({ id }) => `${ASIDE}run ${owner} ${id}`;

/** Lays a run aside, in place of the one that it goes on with. */
function lay_run_aside(run) {
  const before = taken_runs.get(run.id), is_short = (run.run?.events.length ?? 0) < MOST_ASIDE;
  is_all_aside &&= is_short;
  if (!is_short || !put_aside(`run ${owner} ${run.id}`, { run }) || !before) return;
  taken_runs.delete(run.id);
  remove_aside(before);
}

/** Puts something into localStorage, or where it refuses into sessionStorage. Tells whether it is there. */
function put_aside(name, it) {
  const text = JSON.stringify(it), put = (store) => { store.setItem(ASIDE + name, text); return true; };
  const is_there = ["localStorage", "sessionStorage"].some((kind) => attempt(kind, put));
  is_all_aside &&= is_there;
  return is_there;
}

function remove_aside(key) {
  for (const kind of ["localStorage", "sessionStorage"]) attempt(kind, (it) => it.removeItem(key));
}

/** What was laid aside, by its keys. */
function all_aside() {
  const found = new Map();
  const read = (it) => {
    for (const key of Object.keys(it).filter((one) => one.startsWith(ASIDE))) {
      try { found.set(key, Object(JSON.parse(it.getItem(key)))); } catch { /* it can't be read, and stays */ }
    }
  };
  for (const kind of ["localStorage", "sessionStorage"]) attempt(kind, read);
  return found;
}

const is_same = (one, other) => JSON.stringify(one) === JSON.stringify(other);

/**
 * The values that a page has laid aside: each that nobody has changed since, and of which no other page has laid
 * another aside, waits to be written; the others are told.
 */
function take_values_aside(list) {
  for (const [name, value, ...known] of list.filter((it) => typeof it?.[0] === "string")) {
    if (is_same(value, kept(name))) continue;
    // What stands there is what that page had read, or what it was just writing.
    if (waiting.has(name) || !known.includes(versions.get(name) ?? "")) {
      for (const call of hearers.conflicts) call(name, value);
      continue;
    }
    values.set(name, value);
    waiting.add(name);
  }
}

/** Takes the values that were laid aside: they wait, and are forgotten there once they are written. */
function take_all_values_aside() {
  for (const [key, { values: list }] of all_aside()) {
    if (!Array.isArray(list)) continue;
    taken.push(key);
    take_values_aside(list);
  }
}

/** Takes all that was laid aside. */
async function take_aside() {
  take_all_values_aside();
  if (waiting.size) await write_all(); else values_are_kept();
  for (const [key, { run }] of all_aside()) {
    if (typeof run?.id === "string" && (await keep_run_aside(run))) remove_aside(key);
  }
}

// ---- runs: each is a record of its own, {id, owner, name, when, is_own, ..}

const of_runs = (mode, action) => transaction([RUNS], mode, (it) => action(it.objectStore(RUNS)));

/** Writes a run, and tells its number: another one, if a tab that isn't its owner has gone on with the run since. */
async function put_run(store, run) {
  const there = await answer_of(store.get(run.id)), is_others = there && there.owner !== run.owner;
  const own = is_others ? { ...run, id: new_id(), name: "" } : { ...run, name: there?.name ?? run.name ?? "" };
  await answer_of(store.put(own));
  await let_go(store, own.id);
  return own.id;
}

/** Of more than fifty runs that have no name the oldest goes, first one in which nothing was typed. */
async function let_go(store, own) {
  if ((await answer_of(store.count())) <= MOST_RUNS) return;
  const all = (await answer_of(store.getAll())).filter((it) => !it.name && it.id !== own);
  all.sort((a, b) => Number(a.is_own) - Number(b.is_own) || a.when - b.when);
  const count = all.length + 1 - MOST_RUNS;
  for (const it of all.slice(0, Math.max(0, count))) await answer_of(store.delete(it.id));
}

/** Keeps a run, and tells its number, which is another one if another tab has gone on with it. */
export async function keep_run(run) {
  if (waiting.size) write_all();
  try {
    const id = await of_runs("readwrite", (store) => put_run(store, run));
    remove_aside(key_aside(run));
    note_kept("runs");
    return id;
  } catch (error) {
    lay_run_aside(run);
    note_not_kept("runs", error);
    return run.id;
  }
}

/** Keeps a run that was laid aside, unless it stands there as it is, or newer. Tells whether it is kept. */
async function keep_run_aside(run) {
  const is_there = (it) => it && (it.owner === run.owner ? it.when >= run.when : it.run?.events === run.run?.events);
  try {
    const id = await of_runs("readwrite", async (store) => (
      is_there(await answer_of(store.get(run.id))) ? run.id : put_run(store, run)
    ));
    const here = kept_here("run");
    if (here?.id === run.id && here.owner === run.owner) keep_here("run", { id, owner: run.owner });
    return true;
  } catch (error) {
    note_not_kept("runs", error);
    return false;
  }
}

/** All runs, the last one first; those that are laid aside too, as long as they are. */
export async function all_runs() {
  const all = await of_runs("readonly", (store) => answer_of(store.getAll())).catch((error) => {
    note_not_kept("runs", error);
    return [];
  });
  for (const [aside, { run }] of all_aside()) {
    const is_there = all.some((it) => it.id === run?.id && it.owner === run.owner && it.when >= run.when);
    if (typeof run?.id === "string" && !is_there) all.push({ ...run, aside });
  }
  return all.sort((a, b) => b.when - a.when);
}

const not_changed = (error) => note_not_kept("runs", error);
export function delete_run({ id, aside = "" }) {
  remove_aside(aside);
  return of_runs("readwrite", (store) => answer_of(store.delete(id))).catch(not_changed);
}

/**
 * This page goes on with a run that it has read: tells its number, which is another one if another tab has changed the
 * run since.
 */
export async function take_run({ id, when, aside }) {
  if (aside) taken_runs.set(id, aside);
  try {
    return await of_runs("readwrite", async (store) => {
      const there = await answer_of(store.get(id));
      if (!there || there.owner === owner) return id;
      if (there.when !== when) return new_id();
      await answer_of(store.put({ ...there, owner }));
      return id;
    });
  } catch (error) {
    not_changed(error);
    return id;
  }
}

/** Changes something of a run, as its name. Tells whether the run is there, and changed. */
export async function change_run(id, changes) {
  try {
    return await of_runs("readwrite", async (store) => {
      const there = await answer_of(store.get(id));
      if (there) await answer_of(store.put({ ...there, ...changes }));
      return there !== undefined;
    });
  } catch (error) {
    not_changed(error);
    return false;
  }
}

// ---- the beginning

/** What localStorage has of an earlier page, by names. */
function old_values() {
  const found = new Map();
  attempt("localStorage", (it) => {
    for (const key of Object.keys(it)) {
      if (!key.startsWith(PREFIX) || key === MARK || key.startsWith(ASIDE)) continue;
      try { found.set(key.slice(PREFIX.length), JSON.parse(it.getItem(key))); } catch { /* it can't be read */ }
    }
  });
  return found;
}

/** Takes over what localStorage has, and takes it away there once it is kept. */
async function take_over() {
  const old = old_values(), version = new_version();
  if (!old.size) return;
  const { now, ...others } = Object.fromEntries(old);
  const anew = Object.entries(others).filter(([name]) => !values.has(name));
  await transaction([VALUES, RUNS], "readwrite", async (it) => {
    for (const [name, value] of anew) await answer_of(it.objectStore(VALUES).put({ name, value, version }));
    const of_run = { id: new_id(), owner: "", name: "", when: Date.now(), is_own: true };
    if (now) await answer_of(it.objectStore(RUNS).put({ ...now, ...of_run }));
  });
  for (const [name, value] of anew) {
    values.set(name, value);
    versions.set(name, version);
  }
  attempt("localStorage", (it) => { for (const name of old.keys()) it.removeItem(PREFIX + name); });
}

/** Reads the database. What the page has kept meanwhile, if it didn't wait, stays, and is written. */
async function read() {
  const all = await transaction([VALUES], "readonly", (it) => answer_of(it.objectStore(VALUES).getAll()));
  for (const { name, value, version } of all) {
    if (waiting.has(name)) continue;
    values.set(name, value);
    versions.set(name, version);
  }
  await take_over();
  await take_aside();
}

const late = () => new Promise((_, fail) => {
  setTimeout(() => fail(new Error("the database doesn't open")), PATIENCE);
});

/** There is no database: the page has what localStorage has, and keeps it there as it goes. */
function begin_without(error) {
  for (const [name, value] of old_values()) if (!values.has(name)) values.set(name, value);
  take_all_values_aside();
  note_not_kept("values", error);
}

/** Reads what is kept. Tells since when what was done last time wasn't kept, in ms; 0: all was. */
export async function load() {
  const since = last_not_kept(), reading = read();
  reading.catch(() => { /* it is told below */ });
  try {
    await Promise.race([reading, late()]);
  } catch (error) {
    begin_without(error);
  }
  return since;
}
