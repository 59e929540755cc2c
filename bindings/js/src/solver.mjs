/** A model whose questions are answered by a worker, so that the caller's thread never waits, and can end them. */
import { Answer, Explanation, Fixed } from "./answers.mjs";
import { moduleOf } from "./engine.mjs";
import { PbcubeError } from "./errors.mjs";
import { Rules, explainQuestion, fixedQuestion, snapshotOf, solveQuestion } from "./rules.mjs";
import { limitOf } from "./session.mjs";
import { textAnswer, textQuestion } from "./texts.mjs";

const MOST_CONSTRAINTS = 4_194_304;
const MOST_TERMS = 16_777_216;

/** Statements that are kept, for this worker and for the next one. */
class Record extends Rules {
  statements = [];
  #constraints = 0;
  #terms = 0;
  #aimed = 0; // terms of the objective

  constructor() {
    super((statement) => this.#keep(statement));
  }

  #keep(statement) {
    const isAim = statement.kind === "objective";
    const terms = this.#terms + statement.literals.length - (isAim ? this.#aimed : 0);
    const constraints = this.#constraints + (isAim ? 0 : 1);
    if (terms > MOST_TERMS || constraints > MOST_CONSTRAINTS) throw new PbcubeError("TooMany");
    this.statements.push(statement);
    this.#terms = terms;
    this.#constraints = constraints;
    if (isAim) this.#aimed = statement.literals.length;
  }
}

/** The calls of a `Model`, each a promise. A question runs in a worker of its own. */
export class Solver {
  #record = new Record();
  #options;
  #makeWorker;
  #worker = null;
  #told = 0; // statements that the worker has
  #isBusy = false;

  /** A solver that was told nothing. `Solver.create` makes one. */
  constructor(options, makeWorker) {
    this.#options = options;
    this.#makeWorker = makeWorker;
  }

  /** A solver that was told nothing. */
  static async create({ wasm, memory, worker = workerBeside } = {}) {
    limitOf(memory); // which refuses what is none
    return new Solver({ wasm: await moduleOf(wasm), memory }, worker);
  }

  /** How many variables there are. */
  get size() {
    return this.#record.size;
  }

  async variable(name) {
    return this.#free().variable(name);
  }

  async variables(count) {
    return this.#free().variables(count);
  }

  async get(name) {
    return this.#free().get(name);
  }

  async minimise(cost) {
    this.#free().minimise(cost);
  }

  async maximise(gain) {
    this.#free().maximise(gain);
  }

  async add(sum, relation, bound) {
    this.#free().add(sum, relation, bound);
  }

  async clause(literals) {
    this.#free().clause(literals);
  }

  async implies(condition, consequence, relation, bound) {
    this.#free().implies(condition, consequence, relation, bound);
  }

  async atLeast(count, literals) {
    this.#free().atLeast(count, literals);
  }

  async atMost(count, literals) {
    this.#free().atMost(count, literals);
  }

  async exactly(count, literals) {
    this.#free().exactly(count, literals);
  }

  async solve(options) {
    const record = this.#free();
    const question = solveQuestion(record, options);
    const model = snapshotOf(record);
    return new Answer(model, await this.#ask(question, options?.signal));
  }

  async explain(literals, options) {
    const record = this.#free();
    const question = explainQuestion(record, literals, options);
    const model = snapshotOf(record);
    return new Explanation(model, await this.#ask(question, options?.signal));
  }

  async fixed(options) {
    const record = this.#free();
    const question = fixedQuestion(record, options);
    const model = snapshotOf(record);
    return new Fixed(model, await this.#ask(question, options?.signal));
  }

  async solveText(text, options) {
    this.#free();
    const question = textQuestion(text, options);
    return textAnswer(await this.#ask(question, options?.signal));
  }

  /** Ends the worker, and what it is asked. The next question starts another one. */
  close() {
    this.#worker?.end(new PbcubeError("Ended", "the solver was closed"));
    this.#worker = null;
    this.#told = 0;
  }

  /** What was told, where no question is under way. */
  #free() {
    if (this.#isBusy) throw new PbcubeError("Busy");
    return this.#record;
  }

  async #ask(question, signal) {
    signal?.throwIfAborted();
    this.#isBusy = true;
    const end = () => this.#worker?.end(signal.reason);
    try {
      const isNew = this.#worker === null;
      this.#worker ??= new Hands(await this.#makeWorker());
      signal?.throwIfAborted();
      signal?.addEventListener("abort", end);
      const { statements } = this.#record;
      const told = statements.length;
      const options = isNew ? this.#options : undefined;
      const reply = await this.#worker.ask({ options, statements: statements.slice(this.#told), question });
      this.#told = told;
      return reply;
    } catch (fault) {
      this.close(); // what was told it may have in part
      throw fault;
    } finally {
      this.#isBusy = false;
      signal?.removeEventListener("abort", end);
    }
  }
}

/** A worker, of the web or of Node, that is asked one thing at a time. */
class Hands {
  #worker;
  #settle = null; // what is to become of the question under way

  constructor(worker) {
    this.#worker = worker;
    const listen = typeof worker.on === "function" ? worker.on.bind(worker) : worker.addEventListener.bind(worker);
    listen("message", (event) => this.#hear(event.data ?? event));
    listen("error", (event) => this.#fail(event.error ?? event));
    listen("messageerror", () => this.#fail());
    listen("exit", () => this.#fail());
    worker.unref?.();
  }

  /** The reply to a message. */
  ask(message) {
    this.#worker.ref?.(); // Node waits for a worker that works
    return new Promise((resolve, reject) => {
      this.#settle = { resolve, reject };
      this.#worker.postMessage(message);
    });
  }

  /** Ends the worker; the question under way is refused by this fault. */
  end(fault) {
    this.#worker.terminate();
    this.#taken()?.reject(fault);
  }

  #hear({ reply, fault }) {
    if (fault) this.#taken()?.reject(PbcubeError.from(fault));
    else this.#taken()?.resolve(reply);
  }

  #fail(cause) {
    this.#taken()?.reject(new PbcubeError("Ended", "the worker ended by itself", { cause }));
  }

  #taken() {
    const settle = this.#settle;
    this.#settle = null;
    this.#worker.unref?.();
    return settle;
  }
}

/** The worker of the file beside this one. */
async function workerBeside() {
  if (typeof Worker === "function") return new Worker(new URL("./worker.mjs", import.meta.url), { type: "module" });
  const { Worker: Thread } = await import("node:worker_threads");
  return new Thread(new URL("./worker.mjs", import.meta.url));
}
