// Some workers that grade jobs. One that dies costs its own job only.
import { Worker } from "node:worker_threads";
import { fail } from "./one.mjs";

const FILE = new URL("worker.mjs", import.meta.url);

class Pool {
  constructor(data, jobs, done) {
    Object.assign(this, { data, jobs, done, next: 0, workers: 0 });
  }

  /** Starts a worker; without a job left it isn't needed. */
  start() {
    if (this.next === this.jobs.length) return;
    this.workers++;
    const worker = new Worker(FILE, { workerData: this.data });
    const it = { worker, job: null, error: "it ended" };
    worker.on("message", () => this.give(it));
    worker.on("error", (error) => (it.error = error));
    worker.on("exit", () => this.end(it));
    this.give(it);
  }

  /** Gives the worker its next job, or lets it end. */
  give(it) {
    it.job = this.next < this.jobs.length ? this.jobs[this.next++] : null;
    if (it.job) it.worker.postMessage(it.job);
    else it.worker.terminate();
  }

  /** What comes after the end of a worker: another one, if it left its job undone. */
  end(it) {
    this.workers--;
    if (it.job) {
      fail(it.job, `xv_grade: its worker died: ${it.error}\n`);
      this.start();
    }
    if (this.workers === 0) this.done();
  }
}

/** Grades these jobs by so many workers, which share the module and the exercise. */
export function grade_all(data, jobs, count) {
  return new Promise((done) => {
    const pool = new Pool(data, jobs, done);
    for (let k = 0; k < count; k++) pool.start();
    if (pool.workers === 0) done();
  });
}
