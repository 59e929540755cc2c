/** A model in the caller's own thread. */
import { Answer, Explanation, Fixed } from "./answers.mjs";
import { Rules, explainQuestion, fixedQuestion, snapshotOf, solveQuestion } from "./rules.mjs";
import { Session } from "./session.mjs";
import { textAnswer, textQuestion } from "./texts.mjs";

/** Constraints over variables, and an objective. Each question is answered before the call returns. */
export class Model extends Rules {
  #session;

  /** A model that was told nothing. `Model.create` makes one. */
  constructor(session) {
    super((statement) => session.tell(statement));
    if (!(session instanceof Session)) throw new TypeError("a model is made by `await Model.create()`");
    this.#session = session;
  }

  /** A model that was told nothing, which takes at most `memory` bytes where that is given. */
  static async create(options) {
    return new Model(await Session.create(options));
  }

  /** How many bytes of memory it has for what it was told and learned. */
  get memory() {
    return this.#session.memory;
  }

  /** Searches for the least assignment. */
  solve(options) {
    const question = solveQuestion(this, options);
    return new Answer(snapshotOf(this), this.#session.ask(question));
  }

  /** Asks why nothing is feasible under literals. */
  explain(literals, options) {
    const question = explainQuestion(this, literals, options);
    return new Explanation(snapshotOf(this), this.#session.ask(question));
  }

  /** Asks which variables have one value in all assignments that are feasible, or of the least cost. */
  fixed(options) {
    const question = fixedQuestion(this, options);
    return new Fixed(snapshotOf(this), this.#session.ask(question));
  }

  /** Solves a text by itself, apart from what the model was told. */
  solveText(text, options) {
    const question = textQuestion(text, options);
    return textAnswer(this.#session.ask(question));
  }
}

/** Solves a text in a module of its own. */
export async function solveText(text, options = {}) {
  return (await Model.create(options)).solveText(text, options);
}
