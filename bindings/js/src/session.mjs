/** A session of the module: the calls of crates/pb_c, which is told statements and asked questions, both as plain data. */
import { instanceOf } from "./engine.mjs";
import { PbcubeError, refuse } from "./errors.mjs";

const NO_LIMIT = 2n ** 64n - 1n;
const HANDLE = 16n; // bytes of the solver that the module's caller holds, of which all are 0 before it is made
const KEPT_ROOM = 65536; // bytes of room that is kept from one call to the next
const LONGEST_HINT = 1024; // bytes, which are more than any has, since it shows few of a long word
/** The answers of the C header, by its numbers. */
export const STATUSES = {
  1: "Unknown",
  10: "Satisfiable",
  11: "Found",
  20: "Unsatisfiable",
  21: "Core",
  30: "Optimum",
  40: "Unsupported",
};
const HAS_VALUES = ["Satisfiable", "Found", "Optimum"];

/** What the module was told, and keeps of what it learned. */
export class Session {
  #calls;
  #solver;
  #room = 0n;
  #size = 0;
  #isStopped = false;
  #hasObjective = false;

  /** A session that was told nothing, in an instance of its own. */
  static async create({ wasm, memory } = {}) {
    return new Session(await instanceOf(wasm, limitOf(memory)));
  }

  constructor(calls) {
    this.#calls = calls;
    this.#solver = this.#allocated(HANDLE);
    new Uint8Array(calls.memory.buffer, Number(this.#solver), Number(HANDLE)).fill(0);
    this.#checked("pb_c_new", this.#solver);
  }

  /** How many bytes of memory the session has. */
  get memory() {
    return Number(this.#call("memory_in_use"));
  }

  /** Tells a statement: `sum` with a relation and a bound, `objective`, or `clause`. Where it is refused nothing is told. */
  tell(statement) {
    if (statement.kind === "clause") {
      const { pointer, count } = this.#numbers(statement.literals);
      this.#checked("pb_c_clause", this.#solver, pointer, count);
      return;
    }
    try {
      this.#tellSum(statement);
    } catch (fault) {
      if (!this.#isStopped) this.#calls.pb_c_discard(this.#solver);
      throw fault;
    }
  }

  #tellSum({ kind, coefficients, literals, relation, bound }) {
    literals.forEach((literal, place) => this.#checked("pb_c_term", this.#solver, coefficients[place], literal));
    if (kind === "objective") {
      this.#checked("pb_c_end_objective", this.#solver);
      this.#hasObjective = true;
    } else {
      this.#checked("pb_c_end", this.#solver, relation, bound);
    }
  }

  /** Answers a question, which says by `variables` how many there are to be at least. */
  ask(question) {
    if (question.kind === "text") return this.#run(question);
    if (this.#variables() < question.variables) this.#declare(question.variables);
    return { solve: this.#solve, explain: this.#explain, fixed: this.#fixed }[question.kind].call(this, question);
  }

  #solve({ literals, nodes, start }) {
    if (start) {
      const values = this.#bytes(start);
      this.#checked("pb_c_suggest", this.#solver, values, BigInt(start.length));
    }
    const { pointer, count } = this.#numbers(literals);
    const status = STATUSES[this.#checked("pb_c_solve_under", this.#solver, pointer, count, budgetOf(nodes))];
    if (!HAS_VALUES.includes(status)) return { status };
    const values = new Uint8Array(this.#variables());
    values.forEach((_, place) => (values[place] = this.#checked("pb_c_value", this.#solver, place + 1)));
    return { status, cost: this.#hasObjective ? BigInt(this.#text("pb_c_cost_text")) : undefined, values };
  }

  #explain({ literals, nodes }) {
    const count = BigInt(literals.length);
    const told = this.#taken(8 + 8 * literals.length); // how many literals the core has, then the given ones, then the core
    const given = told + 8n;
    const core = given + 4n * count;
    this.#view(Int32Array, given, literals.length).set(literals);
    const code = this.#checked("pb_c_explain", this.#solver, given, count, budgetOf(nodes), core, count, told);
    const status = STATUSES[code];
    if (status !== "Unsatisfiable" && status !== "Core") return { status };
    const found = Number(this.#view(BigUint64Array, told, 1)[0]);
    return { status: "Unsatisfiable", core: this.#view(Int32Array, core, found).slice(), isMinimal: status === "Unsatisfiable" };
  }

  #fixed({ literals, nodes, among }) {
    const variables = this.#variables();
    const room = this.#taken(4 * literals.length + variables);
    const statuses = room + 4n * BigInt(literals.length);
    this.#view(Int32Array, room, literals.length).set(literals);
    const words = [room, BigInt(literals.length), among, budgetOf(nodes), statuses, BigInt(variables)];
    const status = STATUSES[this.#checked("pb_c_fixed", this.#solver, ...words)];
    return status === "Unsatisfiable" ? { status } : { status, statuses: this.#view(Uint8Array, statuses, variables).slice() };
  }

  #run({ text, format, nodes }) {
    const pointer = this.#taken(text.length + LONGEST_HINT); // the text, then room for a hint
    const words = [format, pointer, BigInt(text.length)];
    this.#view(Uint8Array, pointer, text.length).set(text);
    const status = STATUSES[this.#checked("pb_c_run", this.#solver, ...words, budgetOf(nodes))];
    const hint = status === "Unsupported" ? this.#hint(...words) : "";
    this.#giveBack();
    return { status, report: this.#text("pb_c_report"), hint };
  }

  /** The hint that the program gives on a text that it refuses. The text is in the module's memory, with room behind it. */
  #hint(format, pointer, count) {
    const room = pointer + count;
    const length = Number(this.#call("pb_c_hint", format, pointer, count, room, BigInt(LONGEST_HINT)));
    return new TextDecoder().decode(this.#view(Uint8Array, room, length));
  }

  /** Has the variables up to this one: 0 times it is at least 0. */
  #declare(variable) {
    this.tell({ kind: "sum", coefficients: [0n], literals: [variable], relation: 0, bound: 0n });
  }

  #variables() {
    return this.#call("pb_c_variables", this.#solver) >>> 0;
  }

  /** The text that a call writes. */
  #text(name) {
    const length = Number(this.#call(name, this.#solver, this.#taken(1), 0n));
    const room = this.#taken(length);
    this.#call(name, this.#solver, room, BigInt(length));
    const text = new TextDecoder().decode(this.#view(Uint8Array, room, length));
    this.#giveBack();
    return text;
  }

  /** The numbers of literals in the module's memory. */
  #numbers(literals) {
    const pointer = this.#taken(4 * literals.length);
    this.#view(Int32Array, pointer, literals.length).set(literals);
    return { pointer, count: BigInt(literals.length) };
  }

  #bytes(given) {
    const pointer = this.#taken(given.length);
    this.#view(Uint8Array, pointer, given.length).set(given);
    return pointer;
  }

  #view(Kind, pointer, length) {
    return new Kind(this.#calls.memory.buffer, Number(pointer), length);
  }

  /** Room of at least this size, which is the caller's up to the next call of this. */
  #taken(bytes) {
    if (bytes > this.#size || this.#size === 0) {
      const size = Math.max(bytes, 64);
      this.#giveBack(0);
      this.#room = this.#allocated(BigInt(size));
      this.#size = size;
    }
    return this.#room;
  }

  /** Gives room back that is more than is kept. */
  #giveBack(most = KEPT_ROOM) {
    if (this.#size <= most) return;
    this.#call("release", this.#room);
    this.#size = 0;
  }

  #allocated(bytes) {
    const pointer = this.#call("allocate", bytes);
    if (pointer === 0n) throw new PbcubeError("Memory");
    return pointer;
  }

  /** What a call answers, where that is no refusal. */
  #checked(name, ...words) {
    const answer = this.#call(name, ...words);
    if (answer < 0) throw PbcubeError.of(answer);
    return answer;
  }

  #call(name, ...words) {
    if (this.#isStopped) throw new PbcubeError("Stopped");
    try {
      return this.#calls[name](...words);
    } catch (fault) {
      this.#isStopped = true;
      throw new PbcubeError("Stopped", undefined, { cause: fault });
    }
  }
}

function budgetOf(nodes) {
  return nodes === undefined ? NO_LIMIT : nodes;
}

/** A limit of memory as the module takes it. */
export function limitOf(memory) {
  if (memory === undefined) return undefined;
  if (!Number.isSafeInteger(memory) || memory < 0) refuse("a limit of memory is a whole number of bytes");
  return BigInt(memory);
}
