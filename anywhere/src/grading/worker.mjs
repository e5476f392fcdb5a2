// A worker of the pool: grades one job after another, by the module that was compiled once for all workers.
import { parentPort, workerData } from "node:worker_threads";
import { grade_one } from "./one.mjs";

parentPort.on("message", (job) => {
  grade_one(workerData.module, workerData.exercise, Buffer.from(job));
  parentPort.postMessage(null);
});
