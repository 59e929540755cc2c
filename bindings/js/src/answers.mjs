/** What searches found. */
import { PbcubeError, shown } from "./errors.mjs";
import { Literal, asLiteral, asSum, tidy } from "./sums.mjs";

/** What tells of the variables that a model had. */
class OfVariables {
  #model;

  constructor(model) {
    this.#model = model;
  }

  /** The number of a literal, or of the variable of a name. */
  numberOf(literal) {
    if (typeof literal === "string") {
      const number = this.#model.numbers.get(literal);
      if (number === undefined || number > this.#model.variables) {
        throw new PbcubeError("BadVariable", `no variable is named ${shown(literal)}`);
      }
      return number;
    }
    const { number, owner } = asLiteral(literal);
    return this.checked(number, owner);
  }

  checked(number, owner) {
    if (owner !== null && owner !== this.#model.owner) throw new PbcubeError("ForeignLiteral");
    if (Math.abs(number) <= this.#model.variables) return number;
    throw new PbcubeError("BadVariable", `no variable ${Math.abs(number)} among ${this.#model.variables}`);
  }

  /** What is told of the variables that have names, by name; nothing of a place that tells nothing. */
  byName(told) {
    const pairs = [];
    for (const [name, number] of this.#model.numbers) {
      if (number <= this.#model.variables && told[number - 1] !== undefined) pairs.push([name, told[number - 1]]);
    }
    return Object.fromEntries(pairs);
  }
}

/** What a search for the least assignment found. */
export class Answer extends OfVariables {
  constructor(model, { status, cost, values }) {
    super(model);
    this.status = status;
    this.cost = model.aim && values ? tidy(cost * model.aim.sign + model.aim.constant) : null;
    this.values = values ? Array.from({ length: model.variables }, (_, place) => values[place] === 1) : null;
    Object.freeze(this.values);
    Object.freeze(this);
  }

  /** Whether a literal, or the variable of a name, is true. */
  get(literal) {
    return this.#isTrue(this.numberOf(literal));
  }

  #isTrue(number) {
    if (this.values === null) throw new PbcubeError("NoAnswer");
    return this.values[Math.abs(number) - 1] === number > 0;
  }

  /** The value of a sum. */
  value(expression) {
    const sum = asSum(expression);
    const worth = ([coefficient, literal]) => (this.#isTrue(this.checked(literal, sum.owner)) ? coefficient : 0n);
    return tidy(sum.terms.reduce((value, term) => value + worth(term), sum.constant));
  }

  /** The values of the variables that have names, by name; none where nothing was found. */
  named() {
    return this.byName(this.values ?? []);
  }

  /** What JSON holds of it. A cost that is no exact number is a text. */
  toJSON() {
    const cost = typeof this.cost === "bigint" ? `${this.cost}` : this.cost;
    return { status: this.status, cost, values: this.values, named: this.named() };
  }
}

/** Why nothing is feasible under literals. */
export class Explanation {
  constructor(model, { status, core, isMinimal }) {
    this.status = status;
    this.core = core ? Object.freeze(Array.from(core, (it) => new Literal(it, model.names[Math.abs(it) - 1], model.owner))) : null;
    this.isMinimal = isMinimal ?? false;
    Object.freeze(this);
  }
}

const VALUES = [false, true, null]; // by the numbers of the C header; the fourth is not known

/** Which variables have one value in all assignments that were asked about. */
export class Fixed extends OfVariables {
  #statuses;

  constructor(model, { status, statuses }) {
    super(model);
    this.status = status;
    this.#statuses = statuses;
    Object.freeze(this);
  }

  /** The value of a literal, or of the variable of a name, and null where it has both. */
  get(literal) {
    const number = this.numberOf(literal);
    const value = VALUES[this.#status(number)];
    if (value === undefined) throw new PbcubeError("NoAnswer", `of variable ${Math.abs(number)} it is not known`);
    return value === null ? null : value === number > 0;
  }

  /** Whether the value of a literal, or of the variable of a name, is known, or that it has both. */
  isKnown(literal) {
    return this.#status(this.numberOf(literal)) < VALUES.length;
  }

  #status(number) {
    if (!this.#statuses) throw new PbcubeError("NoAnswer", "nothing is feasible");
    return this.#statuses[Math.abs(number) - 1];
  }

  /** What is known of the variables that have names, by name: true, false, or null for both. */
  named() {
    return this.byName(Array.from(this.#statuses ?? [], (status) => VALUES[status]));
  }
}
