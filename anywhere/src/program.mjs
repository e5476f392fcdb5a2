// The programs of the machine as modules, and how Node runs one: wasi.mjs is their host, over the streams and files of
// this process.
import { setFlagsFromString } from "node:v8";
import {
  closeSync, constants, existsSync, fstatSync, ftruncateSync, lstatSync, openSync, readFileSync, realpathSync,
} from "node:fs";
import { join, resolve } from "node:path";
import { isatty } from "node:tty";
import { fileURLToPath } from "node:url";
import { isMainThread } from "node:worker_threads";
import { read_into, rest, write_all } from "./streams.mjs";
import { CHARACTERS, FOLDER, HeldFile, LINK, PlacedFile, REGULAR_FILE, SOCKET, is_trap, run_module } from "./wasi.mjs";

const ANYWHERE = fileURLToPath(new URL("..", import.meta.url));
const IS_WINDOWS = process.platform === "win32";

// A function that has run for a while is compiled once more, for speed, and Node ends only after that. Up to Node 20 a
// while is so short that the end of a short run would wait for it; this is about what later ones have.
const [V8] = process.versions.v8.split(".").map(Number);
// Flags are of the process: a thread leaves them as they are.
if (V8 < 12 && isMainThread) setFlagsFromString("--wasm-tiering-budget=10000000");

/**
 * The file of the module that has the program of this name: `xv_run`, or one of those around the machine, which are
 * `xv_tools`. XV_MODULES is another folder of modules: checks run others than those that stand here.
 */
export function file_of(name) {
  return join(process.env.XV_MODULES || ANYWHERE, name === "xv_run" ? "xv_run.wasm" : "xv_tools.wasm");
}

const compiled = new Map();

/** The module that has the program of this name. It is compiled once. */
export function module_of(name) {
  const file = file_of(name);
  if (!compiled.has(file)) compiled.set(file, compile(file));
  return compiled.get(file);
}

function compile(file) {
  if (!existsSync(file)) {
    throw new Error(`there is no module ${file}: a release has it, and in a clone anywhere/build.sh makes it`);
  }
  try {
    return new WebAssembly.Module(readFileSync(file));
  } catch (error) {
    throw new Error(`the module ${file} isn't whole: ${error.message}`);
  }
}

/** A path of this host as a program takes it: on Windows with slashes. */
export const path_of = (path) => (IS_WINDOWS ? path.replaceAll("\\", "/") : path);

/** The folder that stands; the highest one if it was removed. */
function folder_now() {
  try {
    return path_of(process.cwd());
  } catch {
    return "/";
  }
}

/** The folders that paths begin at: the root; on Windows also the drives that words name, and the one that stands. */
function folders(words) {
  if (!IS_WINDOWS) return ["/"];
  const drive_of = (word) => /^(?:--[a-z]+=)?([A-Za-z]):/.exec(word)?.[1];
  return ["/", ...new Set([folder_now(), ...words.map(String)].map(drive_of).filter(Boolean).map((it) => `${it}:`))];
}

/** What a file is, as WASI tells it, and its size. */
function told(about) {
  const kind = about.isFile() ? REGULAR_FILE : about.isDirectory() ? FOLDER : about.isSymbolicLink() ? LINK
    : about.isCharacterDevice() ? CHARACTERS : SOCKET;
  return { kind, size: about.size };
}

/** An open file of this host. In a plain one, and in a device that is no terminal, `at` is read or written next. */
class HostFile extends PlacedFile {
  constructor(path, { creates, excludes, empties, appends, reads, writes }) {
    super();
    const { O_RDONLY, O_WRONLY, O_RDWR, O_CREAT, O_EXCL, O_TRUNC, O_APPEND } = constants;
    const way = writes ? (reads ? O_RDWR : O_WRONLY) : O_RDONLY;
    const flags = (creates && O_CREAT) | (excludes && O_EXCL) | (empties && O_TRUNC) | (appends && O_APPEND);
    this.fd = openSync(path, way | flags);
    Object.assign(this, told(fstatSync(this.fd)));
    const has_places = this.kind === REGULAR_FILE || (this.kind === CHARACTERS && !isatty(this.fd));
    this.at = has_places && !appends ? 0 : null;
  }

  read(room) {
    return this.passed(read_into(this.fd, room, this.at));
  }

  write(bytes) {
    write_all(this.fd, bytes, this.at);
    this.passed(bytes.length);
  }

  cut(size) {
    ftruncateSync(this.fd, this.size = size);
  }

  close() {
    closeSync(this.fd);
  }
}

/** The file that a path leads to, or null. */
function real(path) {
  try {
    return realpathSync.native(path);
  } catch {
    return null;
  }
}

/**
 * A program takes `a/../b` for `b`; a host goes up from the folder that `a` leads to, if `a` is a link. These are the
 * words for which that makes a difference, by the paths that are asked for.
 */
function up_from_links(words) {
  const up = words.filter((word) => typeof word === "string" && word.includes("/..") && !IS_WINDOWS);
  return new Map(up.filter((word) => real(word) !== real(resolve(word))).map((word) => [resolve(word), word]));
}

/** The files of this host for a program with these words, and before them `held` ones: bytes, by their paths. */
class HostFiles {
  constructor(words, held) {
    Object.assign(this, { names: folders(words), held, linked: up_from_links(words) });
  }

  /** The path of this host. */
  whole(folder, path) {
    const name = this.names[folder];
    const whole = Buffer.concat([Buffer.from(name.endsWith("/") ? name : `${name}/`), path]);
    return this.linked.get(whole.toString()) ?? whole;
  }

  open(folder, path, how) {
    const bytes = this.held[Buffer.from(path).toString()];
    return bytes && !how.writes ? new HeldFile(bytes) : new HostFile(this.whole(folder, path), how);
  }

  about(folder, path) {
    return told(lstatSync(this.whole(folder, path)));
  }
}

/**
 * Runs a program until its end. `module` is that of `module_of(name)`, `words` are those behind its name, texts or
 * Buffers. `streams` may have
 *
 * - `input`: an object with `read(room)`, which fills bytes, and gives how many: none at the end;
 * - `output(bytes)` and `errors(bytes)`, which take all;
 * - `sleep(milliseconds)`, which waits so long, or less;
 * - `files`, whose names are paths without the `/` at their head, and which have the bytes of these files.
 *
 * Without one of the first three it is the stream of this process.
 *
 * @returns the exit status
 */
export function run(module, name, words, streams = {}) {
  const input = streams.input ?? { read: (room) => read_into(0, room) };
  const to = (fd, write = (bytes) => write_all(fd, bytes)) => ({ write: (bytes) => write(Buffer.from(bytes.buffer)) });
  try {
    return run_module(module, {
      words: [name, ...words], environment: [`PWD=${folder_now()}`], files: new HostFiles(words, streams.files ?? {}),
      streams: [input, to(1, streams.output), to(2, streams.errors)], sleep: streams.sleep ?? rest,
      now: (clock) => (clock === 0 ? BigInt(Date.now()) * 1000000n : process.hrtime.bigint()), // 0 is the time of day
    });
  } catch (error) {
    throw is_trap(error) ? new Error(`${name} broke: ${error.message}`) : error;
  }
}
