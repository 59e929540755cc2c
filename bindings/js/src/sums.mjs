/** Literals, and sums of them with whole coefficients. Neither ever changes. */
import { PbcubeError, refuse, shown } from "./errors.mjs";

/** The whole number that a number or a bigint is. */
export function whole(value, what = "a number") {
  if (typeof value === "bigint") return value;
  if (Number.isSafeInteger(value)) return BigInt(value);
  const advice = typeof value === "number" && Number.isInteger(value) ? ": write a bigint where it passes 2**53" : "";
  return refuse(`${what} is a whole number, and not ${shown(value)}${advice}`);
}

/** A number where it is exact, and else the bigint. */
export function tidy(number) {
  return BigInt.asIntN(54, number) === number && number !== -(2n ** 53n) ? Number(number) : number;
}

/** A variable, or its negation, which is worth 1 where the variable is false. `model.variable` makes one. */
export class Literal {
  constructor(number, name, owner) {
    this.number = number;
    this.name = name;
    this.owner = owner;
    Object.freeze(this);
  }

  /** The negation. */
  not() {
    return new Literal(-this.number, this.name, this.owner);
  }

  /** The sum of this literal with a coefficient. */
  times(coefficient) {
    return new Sum([[whole(coefficient, "a coefficient"), this.number]], 0n, this.owner);
  }

  plus(other) {
    return this.times(1).plus(other);
  }

  minus(other) {
    return this.times(1).minus(other);
  }

  toString() {
    return `${this.number < 0 ? "~" : ""}${this.name ?? `x${Math.abs(this.number)}`}`;
  }

  /** A literal is no number: a comparison or a product of literals would be one of JavaScript's own. */
  [Symbol.toPrimitive](hint) {
    if (hint === "string") return this.toString();
    return refuse("a literal is no number: write x.times(2).plus(y), and model.add(sum, '>=', 3)");
  }
}

/** Literals with coefficients, and a number: what is added up, compared and made least. */
export class Sum {
  constructor(terms = [], constant = 0n, owner = null) {
    this.terms = terms;
    this.constant = constant;
    this.owner = owner;
    Object.freeze(this);
  }

  times(factor) {
    const by = whole(factor, "a factor");
    return new Sum(
      this.terms.map(([coefficient, literal]) => [coefficient * by, literal]),
      this.constant * by,
      this.owner,
    );
  }

  /** Both sums in one. Of many parts `total` makes one in less time. */
  plus(other) {
    return total([this, other]);
  }

  minus(other) {
    return total([this, asSum(other).times(-1)]);
  }

  toString() {
    const parts = this.terms.map(([coefficient, literal]) => `${coefficient} ${literal < 0 ? "~" : ""}x${Math.abs(literal)}`);
    return [...parts, ...(this.constant || !parts.length ? [`${this.constant}`] : [])].join(" + ");
  }

  [Symbol.toPrimitive](hint) {
    if (hint === "string") return this.toString();
    return refuse("a sum is no number: write sum.times(2).plus(y), and model.add(sum, '>=', 3)");
  }
}

/** The sum that this is: a literal and a number too, and an array of pairs of a coefficient and a literal. */
export function asSum(value) {
  if (value instanceof Sum) return value;
  if (value instanceof Literal) return value.times(1);
  if (Array.isArray(value)) return total(value.map(asTerm));
  if (typeof value === "bigint" || typeof value === "number") return new Sum([], whole(value));
  return refuse(`a sum is literals with coefficients, as [[2, x], [1, y]] or x.times(2).plus(y), and not ${shown(value)}`);
}

function asTerm(pair) {
  if (!Array.isArray(pair) || pair.length !== 2) refuse(`a term is a coefficient and a literal, as [2, x], and not ${shown(pair)}`);
  const [coefficient, literal] = pair;
  if (literal instanceof Literal) return literal.times(coefficient);
  return new Sum([[whole(coefficient, "a coefficient"), numberOf(literal)]]);
}

/** The number of a literal that is written as a whole number. */
function numberOf(literal) {
  if (!Number.isSafeInteger(literal)) refuse(`a literal is a variable, its not(), or a whole number, and not ${shown(literal)}`);
  if (literal === 0) throw new PbcubeError("BadVariable");
  return literal;
}

/** The literal that this is, as its number and its owner. */
export function asLiteral(value) {
  return value instanceof Literal ? value : { number: numberOf(value), owner: null };
}

/** The sum of all parts. */
export function total(parts) {
  const sums = Array.from(parts, asSum);
  let owner = null;
  for (const sum of sums) owner = joined(owner, sum.owner);
  return new Sum(
    sums.flatMap((sum) => sum.terms),
    sums.reduce((constant, sum) => constant + sum.constant, 0n),
    owner,
  );
}

/** The owner of both, where they are not of two models. */
function joined(one, other) {
  if (one !== null && other !== null && one !== other) throw new PbcubeError("ForeignLiteral");
  return one ?? other;
}
