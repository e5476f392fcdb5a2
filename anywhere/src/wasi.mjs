// A host of WASI (preview 1): what the modules of programs and of the C compiler ask for. Words, streams, the clock and
// files come from the caller: files of this host (program.mjs), or ones that are held in memory, so that a run is a
// function of bytes (run_held), in Node and in a browser. Node's own WASI isn't taken: it is experimental, aborts in
// threads, takes no words that are no text, and knows no streams but those of this process.
export const CHARACTERS = 2, FOLDER = 3, REGULAR_FILE = 4, SOCKET = 6, LINK = 7;
const GOOD = 0, BAD_DESCRIPTOR = 8, IO = 29, NOT_HERE = 52, NO_SEEK = 70;
// Errors by the names that Node gives them.
const ERRORS = {
  EACCES: 2, EAGAIN: 6, EBADF: 8, EBUSY: 10, EEXIST: 20, EFBIG: 22, EINVAL: 28, EIO: 29, EISDIR: 31, ELOOP: 32,
  EMFILE: 33, ENAMETOOLONG: 37, ENFILE: 41, ENODEV: 43, ENOENT: 44, ENOMEM: 48, ENOSPC: 51, ENOTDIR: 54, ENXIO: 60,
  EPERM: 63, EPIPE: 64, EROFS: 69, ETXTBSY: 74,
};
const [CREATES, EXCLUDES, EMPTIES, APPENDS] = [1, 4, 8, 1]; // of how a path is opened; the last one stands in its flags
const READS = 1n << 1n, WRITES = 1n << 6n, ALL_RIGHTS = 0xffffffffffffffffn;
const FIRST_FOLDER = 3;
const NOTHING = new Uint8Array(0);

/** The bytes of a word that is a text, or bytes. */
const bytes_of = (word) => (typeof word === "string" ? new TextEncoder().encode(word) : word);

/** The same, and a zero byte. */
function ended(word) {
  const bytes = bytes_of(word), made = new Uint8Array(bytes.length + 1);
  made.set(bytes);
  return made;
}

/** How bytes become a text of an encoding: "utf8", or "latin1", of which each byte is a letter. */
const READERS = {
  utf8: (bytes) => new TextDecoder("utf-8", { ignoreBOM: true }).decode(bytes),
  latin1: (bytes) => Array.from(bytes, (byte) => String.fromCharCode(byte)).join(""),
};

/** The end of a program, with its status. */
class End {
  constructor(status) {
    this.status = status;
  }
}

/** An error of a call, by the name that Node gives it. */
const failure = (code) => Object.assign(new Error(code), { code, syscall: "wasi" });

/** A file with a place, `at`, which is read or written next; null if its host keeps it. */
export class PlacedFile {
  seek(offset, whence) {
    this.at = [0, this.at, this.size][whence] + offset;
    return this.at;
  }

  /** So many bytes were read or written there. */
  passed(count) {
    if (this.at !== null) this.size = Math.max(this.size, this.at += count);
    return count;
  }
}

/**
 * A file that is held in memory. Its size is that of its bytes, if none is given. (Any file has `read(room)`, which
 * fills bytes and gives how many, `write(bytes)`, which takes all, its `kind` and `size`, and perhaps `seek`, `cut` and
 * `close`.)
 */
export class HeldFile extends PlacedFile {
  constructor(bytes = NOTHING, size = bytes.length) {
    super();
    Object.assign(this, { kind: REGULAR_FILE, room: bytes, size, at: 0 });
  }

  get bytes() {
    return this.room.subarray(0, this.size);
  }

  read(room) {
    const part = this.bytes.subarray(this.at, this.at + room.length);
    room.set(part);
    return this.passed(part.length);
  }

  write(bytes) {
    const end = this.at + bytes.length;
    if (end > this.room.length) {
      const more = new Uint8Array(Math.max(1 << 16, 2 * end));
      more.set(this.room);
      this.room = more;
    }
    this.room.set(bytes, this.at);
    this.passed(bytes.length);
  }

  cut(size) {
    this.size = size;
  }
}

/**
 * Files that are held in memory. `file_of(path)` gives one's bytes, or {bytes, size}, or nothing; a path is a text of
 * this encoding. `made` has those that were made, by their paths.
 */
class HeldFiles {
  constructor(file_of, encoding) {
    Object.assign(this, { names: ["/"], file_of, text_of: READERS[encoding], made: new Map() });
  }

  open(_, path, { creates }) {
    const text = this.text_of(path);
    if (creates) {
      const file = new HeldFile();
      this.made.set(text, file);
      return file;
    }
    const found = this.made.get(text)?.bytes.slice() ?? this.file_of(text);
    if (!found) throw failure("ENOENT");
    return found instanceof Uint8Array ? new HeldFile(found) : new HeldFile(found.bytes, found.size);
  }

  about(_, path) {
    return this.open(_, path, {});
  }

  remove(_, path) {
    if (!this.made.delete(this.text_of(path))) throw failure("ENOENT");
  }
}

/**
 * One run of a module. `words` are bytes, its name first; `environment` has lines NAME=VALUE; `streams` are the files
 * of the first three descriptors; `files` have the `names` of folders that paths begin at, and `open`, `about` and
 * perhaps `remove`. Without `sleep` it doesn't rest, and without `now`, in nanoseconds, each clock stands at 0.
 */
class Host {
  constructor({ words, environment = [], streams, files, sleep = () => {}, now = () => 0n }) {
    Object.assign(this, { words: words.map(ended), environment: environment.map(ended), files, sleep, now });
    this.opened = [...streams, ...files.names.map(() => ({ kind: FOLDER, size: 0 }))];
  }

  get view() { return new DataView(this.memory.buffer); }
  put(at, value) { this.view.setUint32(at, value, true); }
  put_long(at, value) { this.view.setBigUint64(at, BigInt(value), true); }
  bytes(at, size) { return new Uint8Array(this.memory.buffer, at, size); }
  path(at, size) { return this.bytes(at, size).slice(); }
  parts(list, count) {
    const { view } = this, number = (place) => view.getUint32(list + 4 * place, true);
    return Array.from({ length: count }, (_, k) => this.bytes(number(2 * k), number(2 * k + 1)));
  }

  /** The file of a descriptor, if it can do this. */
  file(fd, what) {
    const file = this.opened[fd];
    if (!file || (what && !file[what])) throw failure("EBADF");
    return file;
  }

  put_sizes(texts, count, size) {
    this.put(count, texts.length);
    this.put(size, texts.reduce((sum, text) => sum + text.length, 0));
  }
  put_texts(texts, places, at) {
    for (const [k, text] of texts.entries()) {
      this.put(places + 4 * k, at);
      this.bytes(at, text.length).set(text);
      at += text.length;
    }
  }
  put_about(stat, { kind = CHARACTERS, size = 0 }) {
    this.bytes(stat, 64).fill(0);
    this.view.setUint8(stat + 16, kind);
    this.put_long(stat + 32, size);
  }

  args_sizes_get(count, size) { this.put_sizes(this.words, count, size); }
  args_get(places, at) { this.put_texts(this.words, places, at); }
  environ_sizes_get(count, size) { this.put_sizes(this.environment, count, size); }
  environ_get(places, at) { this.put_texts(this.environment, places, at); }
  clock_time_get(clock, precision, time) { this.put_long(time, this.now(clock)); }

  fd_prestat_get(fd, told) {
    const name = this.files.names[fd - FIRST_FOLDER];
    if (name === undefined) return BAD_DESCRIPTOR;
    this.put(told, 0);
    this.put(told + 4, name.length);
  }
  fd_prestat_dir_name(fd, at, size) { this.bytes(at, size).set(bytes_of(this.files.names[fd - FIRST_FOLDER])); }
  fd_fdstat_get(fd, told) {
    this.bytes(told, 24).fill(0);
    this.view.setUint8(told, this.file(fd).kind);
    this.put_long(told + 8, ALL_RIGHTS);
    this.put_long(told + 16, ALL_RIGHTS);
  }
  fd_fdstat_set_flags() {}
  fd_filestat_get(fd, stat) { this.put_about(stat, this.file(fd)); }

  path_open(folder, look, at, size, how, rights, inheriting, flags, opened) {
    const file = this.files.open(folder - FIRST_FOLDER, this.path(at, size), {
      creates: (how & CREATES) > 0, excludes: (how & EXCLUDES) > 0, empties: (how & EMPTIES) > 0,
      appends: (flags & APPENDS) > 0, reads: (rights & READS) > 0n, writes: (rights & WRITES) > 0n,
    });
    this.put(opened, this.opened.push(file) - 1);
  }
  path_filestat_get(folder, look, at, size, stat) {
    this.put_about(stat, this.files.about(folder - FIRST_FOLDER, this.path(at, size)));
  }
  path_unlink_file(folder, at, size) { this.files.remove(folder - FIRST_FOLDER, this.path(at, size)); }
  path_remove_directory() { throw failure("ENOENT"); }

  fd_read(fd, list, count, got) {
    const file = this.file(fd, "read");
    let sum = 0;
    for (const room of this.parts(list, count)) {
      const read = file.read(room);
      sum += read;
      if (read < room.length) break;
    }
    this.put(got, sum);
  }
  fd_write(fd, list, count, got) {
    const parts = this.parts(list, count), file = this.file(fd, "write");
    for (const bytes of parts) file.write(bytes.slice());
    this.put(got, parts.reduce((sum, bytes) => sum + bytes.length, 0));
  }
  fd_seek(fd, offset, whence, at) {
    if (!this.file(fd).seek || this.file(fd).at === null) return NO_SEEK;
    this.put_long(at, this.file(fd).seek(Number(offset), whence));
  }
  fd_filestat_set_size(fd, size) { this.file(fd, "cut").cut(Number(size)); }
  fd_close(fd) {
    this.file(fd).close?.();
    if (fd >= FIRST_FOLDER + this.files.names.length) this.opened[fd] = null;
  }

  // The only subscription is to the clock, with the nanoseconds at 24. The event has what it has at 0.
  poll_oneoff(wanted, happened, count, told) {
    this.sleep(Number(this.view.getBigUint64(wanted + 24, true)) / 1e6);
    this.bytes(happened, 32).fill(0);
    this.put_long(happened, this.view.getBigUint64(wanted, true));
    this.put(told, 1);
  }
  proc_exit(status) { throw new End(status); }

  /** The answer of a call: 0, or the number of its error. */
  call(name, words) {
    try {
      return this[name](...words) ?? GOOD;
    } catch (error) {
      if (!error.syscall) throw error;
      return ERRORS[error.code] ?? IO;
    }
  }
}

/** Runs a module to its end, with what a `Host` is made of, and gives its status. A trap comes as an error. */
export function run_module(module, given) {
  const host = new Host(given), asked = WebAssembly.Module.imports(module).map(({ name }) => name);
  const calls = asked.map((name) => [name, name in host ? (...words) => host.call(name, words) : () => NOT_HERE]);
  const instance = new WebAssembly.Instance(module, { wasi_snapshot_preview1: Object.fromEntries(calls) });
  host.memory = instance.exports.memory;
  try {
    instance.exports._start();
  } catch (end) {
    if (!(end instanceof End)) throw end;
    return end.status;
  }
  return 0;
}

/** Whether an error is a trap of a module, or that its stack ran over. */
export const is_trap = (error) => error instanceof WebAssembly.RuntimeError || error instanceof RangeError;

/**
 * Runs a module to its end, closed off from the host. `words`, with its name first, are texts or bytes; `file_of(path)`
 * gives the files that it may read (HeldFiles), and `input` is what it has on standard input.
 *
 * @returns {{status, trap, output, errors, made}} the status, or the error of a trap; what it wrote to its streams; and
 *   the files that it made, by their paths: bytes
 */
export function run_held(module, words, file_of, { input = NOTHING, encoding = "utf8" } = {}) {
  const files = new HeldFiles(file_of, encoding), streams = [input, NOTHING, NOTHING].map((it) => new HeldFile(it));
  for (const stream of streams) stream.kind = CHARACTERS;
  let status, trap;
  try {
    status = run_module(module, { words, files, streams });
  } catch (error) {
    if (!is_trap(error)) throw error;
    trap = error;
  }
  const made = new Map([...files.made].map(([path, file]) => [path, file.bytes.slice()]));
  return { status, trap, output: streams[1].bytes.slice(), errors: streams[2].bytes.slice(), made };
}
