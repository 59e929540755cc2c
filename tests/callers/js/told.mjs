/** Does with a `Model`, or with the word --solver with a `Solver`, what ../told.c does: it reads the same, and prints the same. */
import { readFileSync } from "node:fs";
import { pathToFileURL } from "node:url";

const [, , dist, kind] = process.argv;
const { Model, Solver } = await import(pathToFileURL(`${dist}/pbcube.mjs`));
const NUMBERS = { Unknown: 1, Satisfiable: 10, Found: 11, Unsatisfiable: 20, Optimum: 30 };
const LINES = { Optimum: "OPTIMUM FOUND", Unsatisfiable: "UNSATISFIABLE", Unknown: "UNKNOWN" };
const RELATIONS = [">=", "<=", "="];
const words = readFileSync(0, "utf8").split(/\s+/);
let at = 0;
let model, start, hasObjective;
const said = [];

const number = () => Number(words[at++]);
const numbers = () => Array.from({ length: number() }, number);
const budget = () => (words[at] === "-1" ? (at++, undefined) : BigInt(words[at++]));

async function terms() {
  const read = Array.from({ length: number() }, () => [BigInt(words[at++]), number()]);
  const most = Math.max(0, ...read.map(([, literal]) => Math.abs(literal)));
  if (most > model.size) await model.variables(most - model.size);
  return read;
}

/** The literals of variables that there are. */
const literals = () => numbers().filter((literal) => Math.abs(literal) <= model.size);

function tell(text, answer) {
  said.push(`${text}\n= ${answer}\n`);
}

async function under() {
  const nodes = budget();
  const answer = await model.solve({ assuming: literals(), nodes, start });
  const cost = hasObjective && answer.values ? `o ${answer.cost}\n` : "";
  const values = (answer.values ?? []).map((value, place) => ` ${value ? "" : "-"}x${place + 1}`);
  const line = answer.values ? `\nv${values.join("")}` : "";
  tell(`${cost}s ${LINES[answer.status] ?? "SATISFIABLE"}${line}`, NUMBERS[answer.status]);
}

async function explain() {
  const nodes = budget();
  const why = await model.explain(literals(), { nodes });
  const core = (why.core ?? []).map((literal) => ` ${literal.number}`);
  tell(`core${core.join("")}`, why.core && !why.isMinimal ? 21 : NUMBERS[why.status]);
}

async function fixed() {
  const among = ["feasible", "least"][number()];
  const nodes = budget();
  const told = await model.fixed({ assuming: literals(), among, nodes });
  const status = (variable) => (told.isKnown(variable) ? { false: 0, true: 1, null: 2 }[told.get(variable)] : 3);
  const places = Array.from({ length: told.status === "Unsatisfiable" ? 0 : model.size }, (_, place) => status(place + 1));
  tell(`fixed ${places.join("")}`, NUMBERS[told.status]);
}

const steps = {
  async new() {
    if (kind) model?.close();
    model = await (kind ? Solver : Model).create();
    start = undefined;
    hasObjective = false;
  },
  async objective() {
    await model.minimise(await terms());
    hasObjective = true;
  },
  async sum() {
    const relation = RELATIONS[number()];
    const bound = BigInt(words[at++]);
    await model.add(await terms(), relation, bound);
  },
  async suggest() {
    const values = numbers().map(Boolean);
    start = Object.assign(new Map(), { values });
  },
  under,
  explain,
  fixed,
};

while (words[at]) await steps[words[at++]]();
process.stdout.write(said.join(""));
if (kind) model?.close();
