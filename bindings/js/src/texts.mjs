/** Texts in OPB, CNF and iCNF, and what comes of them. */
import { PbcubeError, RefusedText, refuse, shown } from "./errors.mjs";
import { budgetOf } from "./rules.mjs";
import { tidy } from "./sums.mjs";

const FORMATS = { opb: 0, cnf: 1, icnf: 2 };
const MOST_BYTES = 2 ** 26;
const HAS_VALUES = ["Satisfiable", "Found", "Optimum"];

/** A question about a text, as plain data. */
export function textQuestion(text, { format = "opb", nodes } = {}) {
  if (!Object.hasOwn(FORMATS, format)) refuse(`a format is 'opb', 'cnf' or 'icnf', and not ${shown(format)}`);
  if (typeof text !== "string" && !(text instanceof Uint8Array)) refuse(`a text is a string or bytes, and not ${shown(text)}`);
  const isLong = text.length > MOST_BYTES; // of a string it is at least as many bytes
  const bytes = typeof text === "string" && !isLong ? new TextEncoder().encode(text) : text;
  if (isLong || bytes.length > MOST_BYTES) {
    throw new PbcubeError("TooLarge", `a text has at most ${MOST_BYTES} bytes here: the program pbcube reads longer ones`);
  }
  return { kind: "text", text: bytes, format: FORMATS[format], nodes: budgetOf(nodes) };
}

/** The answer of the reply to such a question; refuses a text that was refused. */
export function textAnswer({ status, report, hint }) {
  const lines = new Map(report.split("\n").map((line) => [line[0], line.split(" ")]));
  if (lines.has("c")) refuseText(lines.get("c"), hint, report);
  const found = HAS_VALUES.includes(status);
  const values = found ? lines.get("v").slice(1).filter((word) => word !== "0") : null;
  return Object.freeze({
    status,
    cost: lines.has("o") ? tidy(BigInt(lines.get("o")[1])) : null,
    values: values && Object.freeze(values.map((word) => !word.startsWith("-"))),
    report,
  });
}

/** By the line `c refused: NAME at line LINE`, or `c refused: Memory`. The program's hint names another format by an option. */
function refuseText([, , name, , , line], hint, report) {
  if (name === "Memory") throw new PbcubeError("Memory");
  throw new RefusedText(name, hint.replace(/--format ([a-z]+)/, "format: '$1'"), Number(line), report);
}

/** The format of which a text has the header, or 'opb' where it has an objective; nothing where neither tells. */
export function beginning(text) {
  const start = typeof text === "string" ? text : new TextDecoder().decode(text.subarray(0, 65536));
  for (const line of start.split("\n")) {
    const words = line.trim().split(/[ \t\r]+/);
    if (words[0] === "p" && words[1] === "cnf") return "cnf";
    if (words[0] === "p" && words[1] === "inccnf") return "icnf";
    if (line.trimStart().startsWith("min:") || line.startsWith("* #variable=")) return "opb";
    if (words[0] && !/^[c*]/.test(words[0])) return "";
  }
  return "";
}
