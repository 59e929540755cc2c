/**
 * A pseudo-Boolean optimiser whose answer is proved, as a WebAssembly module with 64-bit memory.
 *
 * Among the assignments of the least cost the answer is the first one: at the first variable where two differ, the one with false
 * comes first.
 */

/** A whole number: a `bigint`, or a `number` that is exact. */
export type Whole = number | bigint;

/** A literal of a model, or as a whole number: n for variable n, and -n for its negation. */
export type LiteralLike = Literal | number;

/** A coefficient and a literal. */
export type Term = readonly [coefficient: Whole, literal: LiteralLike];

/** What a sum may be made of: an array has a pair for each term. */
export type SumLike = Sum | Literal | Whole | readonly Term[];

/** How two sums are compared; `==` is `=`. */
export type Relation = ">=" | "<=" | "=" | "==";

/** The format of a text (docs/FORMATS.md). */
export type Format = "opb" | "cnf" | "icnf";

/**
 * What a search found: `Optimum`, the least assignment; `Satisfiable`, the first feasible one, where there is no objective; `Found`, a
 * feasible one, where the budget cut the search; `Unsatisfiable`, that none is feasible; `Unknown`, nothing before the budget ended.
 */
export type Status = "Optimum" | "Satisfiable" | "Found" | "Unsatisfiable" | "Unknown";

/**
 * Why a call was refused. The first row is of the C header, as its `pbcube_name` spells it, the second is of texts, and the third of
 * this package.
 */
export type Code =
  | "BadVariable" | "TooLarge" | "TooMany" | "Memory" | "Unended" | "NoAnswer" | "BadArgument" | "OutOfRange" | "Null" | "BadLength"
  | "BadHeader" | "ClauseAfterCube" | "LateObjective" | "NonLinear" | "Syntax" | "TooFewClauses" | "TooManyClauses" | "Unfinished"
  | "BadModule" | "Busy" | "Ended" | "ForeignLiteral" | "NameTaken" | "NoMemory64" | "Stopped";

/** A call was refused, and what it was made on is as before. */
export class PbcubeError extends Error {
  protected constructor();
  /** Why. */
  readonly code: Code;
  /** What may help, or an empty text. */
  readonly hint: string;
}

/** A text was refused. */
export class RefusedText extends PbcubeError {
  private constructor();
  /** Where the first faulty statement begins, from 1. */
  readonly line: number;
  /** What the program `pbcube` prints of the text. */
  readonly report: string;
}

/** A variable, or its negation, which is worth 1 where the variable is false. It never changes. */
export class Literal {
  private constructor();
  /** The number of the variable, from 1, which is negative where it is negated. */
  readonly number: number;
  /** The name of the variable, if it has one. */
  readonly name: string | undefined;
  /** The negation. */
  not(): Literal;
  /** The sum of this literal with a coefficient. */
  times(coefficient: Whole): Sum;
  /** The sum of this literal and what is added. */
  plus(other: SumLike): Sum;
  /** The sum of this literal and the negative of what is taken away. */
  minus(other: SumLike): Sum;
  /** The name, or x and the number where there is none, behind a ~ where it is negated. */
  toString(): string;
}

/** A sum of literals with coefficients, and a number. It never changes. */
export class Sum {
  private constructor();
  /** Each number multiplied. */
  times(factor: Whole): Sum;
  /** Both sums in one. */
  plus(other: SumLike): Sum;
  /** This sum and the negative of the other one. */
  minus(other: SumLike): Sum;
  /** The sum as it is read, with variables by their numbers. */
  toString(): string;
}

/** The sum of all parts, in time that is in proportion to them. */
export function total(parts: Iterable<SumLike>): Sum;

/** What a search for the least assignment found. */
export class Answer {
  private constructor();
  readonly status: Status;
  /** The value of the objective: a `bigint` where no `number` is exact; null without an objective, or where nothing was found. */
  readonly cost: Whole | null;
  /** The values of the variables in their order; null where nothing was found. */
  readonly values: readonly boolean[] | null;
  /** Whether a literal, or the variable of a name, is true. */
  get(literal: LiteralLike | string): boolean;
  /** The value of a sum. */
  value(sum: SumLike): Whole;
  /** The values of the variables that have names, by name; none where nothing was found. */
  named(): Record<string, boolean>;
  /** What JSON holds of it: a cost that is a `bigint` is a text. */
  toJSON(): { status: Status; cost: number | string | null; values: readonly boolean[] | null; named: Record<string, boolean> };
}

/** Why nothing is feasible under literals. */
export class Explanation {
  private constructor();
  /** `Unsatisfiable` with a core, `Satisfiable` where something is feasible, or `Unknown` where the budget cut the search. */
  readonly status: "Unsatisfiable" | "Satisfiable" | "Unknown";
  /** Some of the literals, under which nothing is feasible. */
  readonly core: readonly Literal[] | null;
  /** Whether something is feasible without any one of them. A core is not known to be minimal where the budget cut the search. */
  readonly isMinimal: boolean;
}

/** Which variables have one value in all assignments that were asked about. */
export class Fixed {
  private constructor();
  /** `Satisfiable` where all is known, `Unknown` where the budget cut it, `Unsatisfiable` where nothing is feasible. */
  readonly status: "Satisfiable" | "Unsatisfiable" | "Unknown";
  /** The value of a literal, or of the variable of a name, and null where it has both; refused as `NoAnswer` where that is not known. */
  get(literal: LiteralLike | string): boolean | null;
  /** Whether the value of a literal, or of the variable of a name, is known, or that it has both. */
  isKnown(literal: LiteralLike | string): boolean;
  /** What is known of the variables that have names, by name: true, false, or null for both. */
  named(): Record<string, boolean | null>;
}

/** The answer to a text. */
export interface TextAnswer {
  readonly status: Status;
  /** The cost of what was found, where the text has an objective. */
  readonly cost: Whole | null;
  /** The values of the variables in their order; null where nothing was found. */
  readonly values: readonly boolean[] | null;
  /** What the program `pbcube` prints of such a file. */
  readonly report: string;
}

/** How a module is found and what it may take. */
export interface CreateOptions {
  /** The module, or its bytes, in place of the file `pbcube.wasm` beside this package. */
  wasm?: WebAssembly.Module | BufferSource;
  /** The most bytes of memory for what a model is told and learns; a call that would take more is refused as `Memory`. */
  memory?: number;
}

/** A budget. */
export interface Budget {
  /** The most decisions of a search, a whole number. */
  nodes?: Whole;
}

/** What a search for the least assignment is to go by. */
export interface SolveOptions extends Budget {
  /** Literals that are to be true. */
  assuming?: Iterable<LiteralLike>;
  /**
   * Values that searches try first: an answer, one value for each variable in order, or values by names or variables, all others
   * being false. Only an answer that is cut depends on them.
   */
  start?: Answer | readonly boolean[] | Readonly<Record<string, boolean>> | ReadonlyMap<string | Literal, boolean>;
}

/** What is asked about. */
export interface FixedOptions extends Budget {
  /** Literals that are to be true. */
  assuming?: Iterable<LiteralLike>;
  /** All assignments that are feasible (which goes without saying), or those of them of the least cost. */
  among?: "feasible" | "least";
}

/** How a text is solved. */
export interface TextOptions extends Budget {
  /** `opb` where none is given. */
  format?: Format;
}

/** Constraints over variables, and an objective. Each call is answered before it returns; a refused one changes nothing. */
export class Model {
  private constructor();
  /** A model that was told nothing, in a module of its own. */
  static create(options?: CreateOptions): Promise<Model>;
  /** How many variables there are. */
  readonly size: number;
  /** How many bytes of memory the model has for what it was told and learned. */
  readonly memory: number;
  /** A new variable, with a name where one is given. */
  variable(name?: string): Literal;
  /** New variables: a number of them, or one of each name, which may also be the words of one text. */
  variables(count: number | string | Iterable<string>): Literal[];
  /** The variable of that name. */
  get(name: string): Literal;
  /** Makes the sum what is to be least, in place of an earlier objective. */
  minimise(cost: SumLike): void;
  /** Makes the sum what is to be greatest, in place of an earlier objective. */
  maximise(gain: SumLike): void;
  /** Adds that a sum is at least, at most or exactly another one. */
  add(sum: SumLike, relation: Relation, bound: SumLike): void;
  /** Adds that at least one of the literals is true. */
  clause(literals: Iterable<LiteralLike>): void;
  /** Adds that where the condition is true, so is the literal. */
  implies(condition: LiteralLike, consequence: LiteralLike): void;
  /** Adds that where the condition is true, the comparison holds. */
  implies(condition: LiteralLike, sum: SumLike, relation: Relation, bound: SumLike): void;
  /** Adds that at least `count` of the literals are true. */
  atLeast(count: Whole, literals: Iterable<LiteralLike>): void;
  /** Adds that at most `count` of the literals are true. */
  atMost(count: Whole, literals: Iterable<LiteralLike>): void;
  /** Adds that exactly `count` of the literals are true. */
  exactly(count: Whole, literals: Iterable<LiteralLike>): void;
  /** Searches for the least assignment. */
  solve(options?: SolveOptions): Answer;
  /** Asks why nothing is feasible under the literals. */
  explain(literals: Iterable<LiteralLike>, options?: Budget): Explanation;
  /** Asks which variables have one value in all assignments that are feasible, or of the least cost. */
  fixed(options?: FixedOptions): Fixed;
  /** Solves a text by itself, apart from what the model was told. */
  solveText(text: string | Uint8Array, options?: TextOptions): TextAnswer;
}

/** Solves a text in a module of its own. */
export function solveText(text: string | Uint8Array, options?: TextOptions & CreateOptions): Promise<TextAnswer>;

/** Whether this program has WebAssembly with 64-bit memories. */
export function isSupported(): boolean;

/** What ends a question. */
export interface Abortable {
  /** Ends the question at once where it is aborted; the promise is then refused with its reason. */
  signal?: AbortSignal;
}

/** What a solver's questions are asked of: a Web Worker, or one of Node's `worker_threads`. */
export interface SolverWorker {
  postMessage(message: unknown): void;
  terminate(): unknown;
}

/** How a solver is made. */
export interface SolverOptions extends CreateOptions {
  /** Makes a worker that runs `pbcube/worker.mjs`, where the one that this package makes cannot be found, as behind a bundler. */
  worker?: () => SolverWorker | Promise<SolverWorker>;
}

/**
 * The calls of a `Model`, each a promise. A question runs in a worker of its own; a call meanwhile is refused as `Busy`. After a
 * question that was aborted or refused the next one starts another worker, with all that the solver was told.
 */
export class Solver {
  private constructor();
  /** A solver that was told nothing. */
  static create(options?: SolverOptions): Promise<Solver>;
  /** How many variables there are. */
  readonly size: number;
  /** As of a `Model`. */
  variable(name?: string): Promise<Literal>;
  /** As of a `Model`. */
  variables(count: number | string | Iterable<string>): Promise<Literal[]>;
  /** As of a `Model`. */
  get(name: string): Promise<Literal>;
  /** As of a `Model`. */
  minimise(cost: SumLike): Promise<void>;
  /** As of a `Model`. */
  maximise(gain: SumLike): Promise<void>;
  /** As of a `Model`. */
  add(sum: SumLike, relation: Relation, bound: SumLike): Promise<void>;
  /** As of a `Model`. */
  clause(literals: Iterable<LiteralLike>): Promise<void>;
  /** As of a `Model`. */
  implies(condition: LiteralLike, consequence: LiteralLike): Promise<void>;
  /** As of a `Model`. */
  implies(condition: LiteralLike, sum: SumLike, relation: Relation, bound: SumLike): Promise<void>;
  /** As of a `Model`. */
  atLeast(count: Whole, literals: Iterable<LiteralLike>): Promise<void>;
  /** As of a `Model`. */
  atMost(count: Whole, literals: Iterable<LiteralLike>): Promise<void>;
  /** As of a `Model`. */
  exactly(count: Whole, literals: Iterable<LiteralLike>): Promise<void>;
  /** As of a `Model`. */
  solve(options?: SolveOptions & Abortable): Promise<Answer>;
  /** As of a `Model`. */
  explain(literals: Iterable<LiteralLike>, options?: Budget & Abortable): Promise<Explanation>;
  /** As of a `Model`. */
  fixed(options?: FixedOptions & Abortable): Promise<Fixed>;
  /** As of a `Model`. */
  solveText(text: string | Uint8Array, options?: TextOptions & Abortable): Promise<TextAnswer>;
  /** Ends the worker, and the question under way, which is refused as `Ended`. The next question starts another worker. */
  close(): void;
}
