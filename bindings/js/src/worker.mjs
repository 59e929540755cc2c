/** What a `Solver` runs, as a Web Worker or as one of Node's `worker_threads`. */
import { serve } from "./serving.mjs";

if (typeof self === "object" && typeof self.postMessage === "function") {
  serve(
    (hear) => self.addEventListener("message", (event) => hear(event.data)),
    (message) => self.postMessage(message),
  );
} else {
  const { parentPort } = await import("node:worker_threads");
  serve(
    (hear) => parentPort.on("message", hear),
    (message) => parentPort.postMessage(message),
  );
}
