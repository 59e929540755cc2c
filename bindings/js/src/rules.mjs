/** What a model and a solver are told: variables with names, and statements as plain data, which are handed on. */
import { PbcubeError, refuse, shown } from "./errors.mjs";
import { Literal, asLiteral, asSum, total, whole } from "./sums.mjs";

const MOST_VARIABLES = 1_048_576;
const RELATIONS = { ">=": 0, "<=": 1, "=": 2, "==": 2 };
const AMONG = { feasible: 0, least: 1 };
const MOST_DECISIONS = 2n ** 64n - 2n;

let asked; // what the functions below ask of rules

/** Variables and statements. */
export class Rules {
  static {
    asked = {
      question: (rules, ...words) => rules.#question(...words),
      start: (rules, start) => rules.#valuesOf(start),
      snapshot: (rules) => rules.#snapshot(),
    };
  }

  #tell;
  #owner = Object.freeze({});
  #names = []; // by the places of the variables: a name, or nothing
  #numbers = new Map(); // by name
  #variables = 0;
  #aim = null;

  /** Rules that hand each statement to `tell`, which throws where it is refused. */
  constructor(tell) {
    this.#tell = tell;
  }

  /** How many variables there are. */
  get size() {
    return this.#variables;
  }

  /** A new variable, with a name where one is given. */
  variable(name) {
    return this.#made([name])[0];
  }

  /** New variables: a number of them, or one of each name, which may also be the words of one text, as "x y". */
  variables(count) {
    if (typeof count === "string") return this.#made(count.split(/\s+/).filter(Boolean));
    if (typeof count?.[Symbol.iterator] === "function") return this.#made([...count]);
    if (!Number.isSafeInteger(count) || count < 0) {
      refuse(`neither a number of variables nor names: ${shown(count)}: write variables(3) or variables("x y z")`);
    }
    if (count > MOST_VARIABLES) throw new PbcubeError("BadVariable");
    return this.#made(new Array(count).fill(undefined));
  }

  #made(names) {
    const taken = new Set();
    for (const name of names) {
      if (name === undefined) continue;
      if (typeof name !== "string") refuse(`a name is a text, and not ${shown(name)}`);
      if (this.#numbers.has(name) || taken.has(name)) throw new PbcubeError("NameTaken", `a variable is named ${shown(name)} already`);
      taken.add(name);
    }
    if (this.#variables + names.length > MOST_VARIABLES) throw new PbcubeError("BadVariable");
    return names.map((name) => {
      const number = ++this.#variables;
      this.#names.push(name);
      if (name !== undefined) this.#numbers.set(name, number);
      return new Literal(number, name, this.#owner);
    });
  }

  /** The variable of that name. */
  get(name) {
    const number = this.#numbers.get(name);
    if (number === undefined) throw new PbcubeError("BadVariable", `no variable is named ${shown(name)}`);
    return new Literal(number, name, this.#owner);
  }

  /** Makes the sum what is to be least, in place of an earlier objective. */
  minimise(cost) {
    this.#aimAt(cost, 1n);
  }

  /** Makes the sum what is to be greatest, in place of an earlier objective. The cost of an answer is its value. */
  maximise(gain) {
    this.#aimAt(gain, -1n);
  }

  #aimAt(given, sign) {
    const sum = this.#own(asSum(given));
    this.#tell({ kind: "objective", ...columnsOf(sum.times(sign)) });
    this.#aim = { sign, constant: sum.constant };
  }

  /** Adds that a sum is at least, at most or exactly a number or another sum. */
  add(sum, relation, bound) {
    this.#tell(this.#compared(sum, relation, bound));
  }

  #compared(sum, relation, bound) {
    if (!Object.hasOwn(RELATIONS, relation)) refuse(`a relation is '>=', '<=' or '=', and not ${shown(relation)}`);
    const left = this.#own(asSum(sum).minus(bound));
    return { kind: "sum", relation: RELATIONS[relation], bound: fitting(-left.constant), ...columnsOf(left) };
  }

  /** Adds that at least one of the literals is true. */
  clause(literals) {
    this.#tell({ kind: "clause", literals: this.#literals(literals) });
  }

  /** Adds that where the condition is true, so is a literal, or so holds a comparison. */
  implies(condition, consequence, relation, bound) {
    const [given] = this.#literals([condition]);
    if (relation === undefined) return this.clause([-given, ...this.#literals([consequence])]);
    const { relation: number } = this.#compared(consequence, relation, bound);
    const left = asSum(consequence).minus(bound);
    const sums = { 0: [left], 1: [left.times(-1)], 2: [left, left.times(-1)] }[number];
    const guarded = sums.map((sum) => sum.plus([[missing(sum), -given]]));
    for (const sum of guarded) this.#compared(sum, ">=", 0); // so that both are refused or none
    for (const sum of guarded) this.add(sum, ">=", 0);
  }

  /** Adds that at least `count` of the literals are true. */
  atLeast(count, literals) {
    this.#count(literals, ">=", count);
  }

  /** Adds that at most `count` of the literals are true. */
  atMost(count, literals) {
    this.#count(literals, "<=", count);
  }

  /** Adds that exactly `count` of the literals are true. */
  exactly(count, literals) {
    this.#count(literals, "=", count);
  }

  #count(literals, relation, count) {
    const sum = total(Array.from(this.#literals(literals), (literal) => [[1, literal]]));
    this.add(sum, relation, whole(count, "a count"));
  }

  /** The numbers of literals, each a literal of this model or a whole number. */
  #literals(given) {
    if (typeof given?.[Symbol.iterator] !== "function" || typeof given === "string") {
      refuse(`literals stand in an array, and not in ${shown(given)}`);
    }
    return Int32Array.from([...given].map(asLiteral), ({ number, owner }) => this.#known(number, owner));
  }

  /** The sum, where its literals are of this model. */
  #own(sum) {
    for (const [, literal] of sum.terms) this.#known(literal, sum.owner);
    return sum;
  }

  #known(number, owner) {
    if (owner !== null && owner !== this.#owner) throw new PbcubeError("ForeignLiteral");
    if (Math.abs(number) > this.#variables) {
      throw new PbcubeError("BadVariable", `${Math.abs(number)} is no variable: there are ${this.#variables}`);
    }
    return number;
  }

  #question(kind, assuming, nodes, more = {}) {
    return { kind, literals: this.#literals(assuming), nodes: budgetOf(nodes), variables: this.#variables, ...more };
  }

  /** Values to be tried first, a byte 0 or 1 for each variable: those of an answer, an array, or an object or a map by names. */
  #valuesOf(start) {
    if (start?.values === null) throw new PbcubeError("NoAnswer");
    const given = Array.isArray(start?.values) ? start.values : start;
    if (Array.isArray(given)) return this.#valuesInOrder(given, start);
    if (given === null || typeof given !== "object") {
      refuse(`a start is an answer, an array, or an object of values by names, and not ${shown(start)}`);
    }
    const values = new Uint8Array(this.#variables);
    for (const [name, value] of given instanceof Map ? given : Object.entries(given)) {
      const { number } = name instanceof Literal ? name : this.get(name);
      values[Math.abs(this.#known(number, name.owner ?? null)) - 1] = truth(value) === number > 0;
    }
    return values;
  }

  #valuesInOrder(given, start) {
    if (given.length > this.#variables || (given === start && given.length < this.#variables)) {
      throw new PbcubeError("BadLength", `a start in order has a value for each of ${this.#variables} variables, and not ${given.length}`);
    }
    const values = new Uint8Array(this.#variables); // an earlier answer has none of the variables that were made since
    values.set(given.map(truth));
    return values;
  }

  #snapshot() {
    return { owner: this.#owner, names: this.#names, numbers: this.#numbers, variables: this.#variables, aim: this.#aim };
  }
}

/** A question for the least assignment, as plain data. */
export function solveQuestion(rules, { assuming = [], nodes, start } = {}) {
  return asked.question(rules, "solve", assuming, nodes, { start: start === undefined ? undefined : asked.start(rules, start) });
}

/** A question why nothing is feasible, as plain data. */
export function explainQuestion(rules, assuming, { nodes } = {}) {
  return asked.question(rules, "explain", assuming, nodes);
}

/** A question which variables are fixed, as plain data. */
export function fixedQuestion(rules, { assuming = [], among = "feasible", nodes } = {}) {
  if (!Object.hasOwn(AMONG, among)) refuse(`what is asked about is 'feasible' or 'least', and not ${shown(among)}`);
  return asked.question(rules, "fixed", assuming, nodes, { among: AMONG[among] });
}

/** What answers need to know of rules as they are now. */
export function snapshotOf(rules) {
  return asked.snapshot(rules);
}

/** What has to be added, where the condition is false, so that the sum is at least 0 whatever its literals are. */
function missing(sum) {
  const least = sum.terms.reduce((found, [coefficient]) => (coefficient < 0n ? found + coefficient : found), sum.constant);
  return least < 0n ? -least : 0n;
}

/** The numbers of a sum as the module takes them. */
function columnsOf(sum) {
  return {
    coefficients: BigInt64Array.from(sum.terms, ([coefficient]) => fitting(coefficient)),
    literals: Int32Array.from(sum.terms, ([, literal]) => literal),
  };
}

/** The number, where 64 bits hold it. */
function fitting(number) {
  if (BigInt.asIntN(64, number) === number) return number;
  throw new PbcubeError("TooLarge", "each number of a model fits 64 bits: a text takes greater ones (solveText), to 2**126 - 1 in all");
}

/** A budget of decisions as the module takes it; nothing where there is none. */
export function budgetOf(nodes) {
  if (nodes === undefined || nodes === null) return undefined;
  const budget = whole(nodes, "a budget of decisions");
  if (budget < 0n || budget > MOST_DECISIONS) refuse("a budget of decisions is from 0 to 2**64 - 2");
  return budget;
}

function truth(value) {
  if (value === true || value === 1) return true;
  if (value === false || value === 0 || value === null) return false; // `fixed` tells null where a variable has both values
  return refuse(`a value in a start is true or false, and not ${shown(value)}`);
}

