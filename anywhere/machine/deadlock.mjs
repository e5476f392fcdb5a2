// A deadlock: whether nobody can go on, and in which calls all of them sleep.
import { call_name } from "./calls.mjs";

const ENDS = { read: 3, write: 4 }; // the kind of a descriptor that a call waits for, if that is a pipe's end

/** Whether a process can be woken by other processes alone: it waits for a child, or for an end of a pipe. */
function needs_others({ pid, asleep, marked, call }, descriptors) {
  if (!asleep || marked || !call) return false;
  const name = call_name(call.number), end = ENDS[name];
  if (name === "wait") return true;
  const fd = Number(call.words[0] & 0xffffffffn);
  return end !== undefined && descriptors.some((it) => it.pid === pid && it.fd === fd && it.kind === end);
}

/** The processes that live, if each of them sleeps until another one does something: nobody can go on. Else null. */
export function deadlocked(processes, descriptors) {
  const live = processes.filter((it) => it.lives);
  return live.length && live.every((it) => needs_others(it, descriptors)) ? live : null;
}

/** The process whose sleep tells most: one that waits for a pipe, before those that wait for children. */
export const first_of = (list) => list.find((it) => call_name(it.call.number) !== "wait") ?? list[0];
