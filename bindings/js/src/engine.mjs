/** The WebAssembly module: found, compiled once, and made a new instance of for each model, with a memory of its own. */
import { PbcubeError } from "./errors.mjs";

/** A module of nothing but a 64-bit memory. */
const PROBE = new Uint8Array([0, 0x61, 0x73, 0x6d, 1, 0, 0, 0, 5, 3, 1, 4, 0]);

let compiled; // a promise of the module that lies beside this file, once somebody asked for it

/** Whether this program has WebAssembly with 64-bit memories. */
export function isSupported() {
  return typeof WebAssembly === "object" && WebAssembly.validate(PROBE);
}

/** The bytes of the module that lies beside this file. */
async function bytesBeside() {
  const url = new URL("./pbcube.wasm", import.meta.url);
  if (url.protocol === "file:") {
    const { readFile } = await import("node:fs/promises");
    return readFile(url);
  }
  const response = await fetch(url);
  if (!response.ok) throw new PbcubeError("BadModule", `${url} cannot be read: ${response.status} ${response.statusText}`);
  return response.arrayBuffer();
}

async function compile(bytes) {
  try {
    return await WebAssembly.compile(bytes);
  } catch (fault) {
    throw new PbcubeError("BadModule", undefined, { cause: fault });
  }
}

/** The compiled module: the one that is given, or else the one beside this file. */
export async function moduleOf(wasm) {
  if (!isSupported()) throw new PbcubeError("NoMemory64");
  if (wasm instanceof WebAssembly.Module) return wasm;
  if (wasm !== undefined) return compile(wasm);
  compiled ??= bytesBeside().then(compile);
  try {
    return await compiled;
  } catch (fault) {
    compiled = undefined; // so that the next one tries anew
    throw fault;
  }
}

/** The exports of a new instance, with the most bytes of memory that it takes for what it is told and learns. */
export async function instanceOf(wasm, memory) {
  const module = await moduleOf(wasm);
  let calls;
  try {
    calls = (await WebAssembly.instantiate(module, {})).exports;
  } catch (fault) {
    throw new PbcubeError(fault instanceof RangeError ? "Memory" : "BadModule", undefined, { cause: fault });
  }
  if (typeof calls.pb_c_new !== "function") throw new PbcubeError("BadModule");
  if (memory !== undefined) calls.limit_memory(memory);
  return calls;
}
