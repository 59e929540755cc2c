/** What is refused, and what may help. */

const HINTS = {
  BadModule: "pbcube.wasm is not whole, or another file: install the package anew",
  BadVariable: "variables are numbered from 1 to 1048576",
  Busy: "a solver is in one call at a time: await the last one, or make another solver",
  ForeignLiteral: "the variable is one of another model",
  Memory: "memory was refused",
  NoAnswer: "nothing was found",
  NoMemory64:
    "this program has no WebAssembly with 64-bit memories: Chrome has them from 133 on, Firefox from 134 on, Node from 24 on, and " +
    "Node 20 and 22 with --experimental-wasm-memory64",
  Stopped: "the module stopped within a call, and can no longer be used: make another model",
  TooLarge: "the numbers of a statement, without their signs, add up to at most 2**126 - 1: take smaller units",
  TooMany: "there are at most 1048576 variables, 4194304 constraints, 1048575 cubes and 16777216 terms",
};

/** By the codes of the C header, the names that its `pbcube_name` gives them. */
const NAMES = new Map([
  [-1, "BadVariable"],
  [-2, "TooLarge"],
  [-3, "TooMany"],
  [-4, "Memory"],
  [-5, "Unended"],
  [-7, "NoAnswer"],
  [-8, "BadArgument"],
  [-9, "OutOfRange"],
  [-10, "Null"],
  [-11, "BadLength"],
]);

/** A call was refused, and what it was made on is as before. `code` says why, `hint` what may help. */
export class PbcubeError extends Error {
  constructor(code, hint = HINTS[code] ?? "", more = {}) {
    super(hint ? `${code}: ${hint}` : code, more);
    this.name = "PbcubeError";
    this.code = code;
    this.hint = hint;
  }

  /** The error of a code below 0 that a call of the module answers. */
  static of(number) {
    return new PbcubeError(NAMES.get(number) ?? `${number}`);
  }

  /** What another thread is sent of it. */
  toMessage() {
    return { code: this.code, hint: this.hint, line: this.line, report: this.report };
  }

  /** The error that another thread sent. */
  static from({ code, hint, line, report }) {
    return report === undefined ? new PbcubeError(code, hint) : new RefusedText(code, hint, line, report);
  }
}

/** A text was refused: `line` is where its first faulty statement begins, from 1, and `report` what the program prints of it. */
export class RefusedText extends PbcubeError {
  constructor(code, hint, line, report) {
    super(code, hint);
    this.name = "RefusedText";
    this.message = `${code} at line ${line}${hint ? `: ${hint}` : ""}`;
    this.line = line;
    this.report = report;
  }
}

/** Refuses an argument. */
export function refuse(hint, code = "BadArgument") {
  throw new PbcubeError(code, hint);
}

/** An argument as it is named in a hint: short, and whatever it is. */
export function shown(value) {
  if (typeof value === "bigint") return `${value}n`;
  if (typeof value === "string") return JSON.stringify(value.length > 40 ? `${value.slice(0, 40)}..` : value);
  if (value === null || typeof value !== "object") return String(value);
  return Array.isArray(value) ? "an array" : `a ${value.constructor?.name ?? "object"}`;
}
