/** Calls a `Model` and a `Solver` in every way that pbcube.d.ts declares, and in ways that it does not, and checks what comes of it.
 * Prints how many checks there were; ends with an error at the first that fails. */
import assert from "node:assert/strict";
import { readFileSync } from "node:fs";
import { pathToFileURL } from "node:url";

const dist = process.argv[2];
const pbcube = await import(pathToFileURL(`${dist}/pbcube.mjs`));
const { Model, PbcubeError, RefusedText, Solver, solveText, total } = pbcube;
let checks = 0;

function is(found, owed, text) {
  checks++;
  assert.deepEqual(found, owed, text);
}

/** That a call is refused by this code, and what it was made on is as before. */
async function refused(code, call, model) {
  checks++;
  const before = model && JSON.stringify(await model.solve());
  await assert.rejects(
    async () => call(),
    (fault) => fault instanceof PbcubeError && fault.code === code && fault.message.startsWith(code),
    `${call} is not refused as ${code}`,
  );
  if (model) is(JSON.stringify(await model.solve()), before, `${call} changed the model`);
}

async function covered(Kind, options) {
  const model = await Kind.create(options);
  const [x, y, z] = await model.variables("x y z");
  await model.minimise([[2, x], [3, y], [1, z]]);
  await model.add(x.plus(y), ">=", 1);
  await model.clause([y, z]);
  return { model, x, y, z };
}

async function worked(Kind) {
  const { model, x, y, z } = await covered(Kind);
  const answer = await model.solve();
  is([answer.status, answer.cost, [...answer.values]], ["Optimum", 3, [false, true, false]]);
  is([answer.get(y), answer.get(y.not()), answer.get("x"), answer.get(-1)], [true, false, false, true]);
  is(answer.value(x.times(5).plus(y.times(3)).minus(1)), 2);
  is(answer.named(), { x: false, y: true, z: false });
  is(JSON.parse(JSON.stringify(answer)), {
    status: "Optimum",
    cost: 3,
    values: [false, true, false],
    named: { x: false, y: true, z: false },
  });
  is((await model.solve({ assuming: [y.not()] })).cost, 3);
  is((await model.solve({ assuming: [-2] })).named(), { x: true, y: false, z: true });
  const why = await model.explain([x, y.not(), z.not()]);
  is([why.status, why.core.map(String), why.isMinimal], ["Unsatisfiable", ["~y", "~z"], true]);
  is((await model.explain([x])).status, "Satisfiable");
  const fixed = await model.fixed({ assuming: [y.not()] });
  is([fixed.status, fixed.get(x), fixed.get(x.not()), fixed.get("z"), fixed.isKnown(y)], ["Satisfiable", true, false, true, true]);
  is((await model.fixed()).named(), { x: null, y: null, z: null });
  is((await model.fixed({ among: "least" })).get(y), null);
  is((await model.fixed({ assuming: [x.not(), y.not()] })).status, "Unsatisfiable");
  await more(model, x, y, z);
  model.close?.();
}

async function more(model, x, y, z) {
  await model.maximise(total([x, [[2, y]], z.times(3)]).plus(10));
  is((await model.solve()).cost, 16);
  await model.implies(z, y.not());
  is((await model.solve()).named(), { x: true, y: false, z: true });
  await model.implies(x, y.plus(z), ">=", 2);
  is((await model.solve()).named(), { x: false, y: true, z: false });
  await model.atMost(2, [x, y, z]);
  await model.atLeast(1, [x, z]);
  is((await model.solve()).status, "Unsatisfiable");
  const w = await model.variable("w");
  is([model.size, String(w), String(await model.get("w"))], [4, "w", "w"]);
}

async function wholeNumbers() {
  const model = await Model.create();
  const [x, y] = model.variables(2);
  model.minimise([[2n ** 62n, x], [2n ** 62n, y], [1, x.not()]]);
  model.exactly(2, [x, y]);
  is(model.solve().cost, 2n ** 63n);
  model.maximise(x.times(2 ** 53 - 1).plus(0));
  is(model.solve().cost, 2 ** 53 - 1);
  model.maximise(x.times(2 ** 53 - 1).plus(1));
  is(model.solve().cost, 2n ** 53n);
  is(model.solve().toJSON().cost, "9007199254740992");
  model.maximise(7);
  is(model.solve().cost, 7);
}

async function starts() {
  const { model, x, y, z } = await covered(Model);
  const start = model.solve({ assuming: [x] });
  is(model.solve({ start }).cost, 3);
  for (const given of [[true, false, true], { x: true, z: true }, new Map([[y.not(), true], [x, true], ["z", true]])]) {
    is([...model.solve({ start: given, nodes: 0 }).values].length, 3);
  }
  await refused("BadLength", () => model.solve({ start: [true] }), model);
  await refused("BadArgument", () => model.solve({ start: [true, 2, false] }), model);
  await refused("BadArgument", () => model.solve({ start: 7 }), model);
  await refused("BadVariable", () => model.solve({ start: { nobody: true } }), model);
  const cut = await Model.create();
  const many = cut.variables(30);
  for (let place = 0; place < 28; place++) cut.add(total(many.slice(place, place + 3)), "=", 1 + (place % 2));
  cut.minimise(many.map((it, place) => [place % 5, it]));
  is(["Unknown", "Found", "Optimum", "Unsatisfiable"].includes(cut.solve({ nodes: 1 }).status), true);
  is(z.number, 3);
}

async function texts() {
  const text = "min: 2 x1 3 x2 1 x3 ;\n1 x1 1 x2 >= 1 ;\n1 x2 1 x3 >= 1 ;\n";
  const answer = await solveText(text);
  is(answer.report, "o 3\ns OPTIMUM FOUND\nv -x1 x2 -x3\n");
  is([answer.status, answer.cost, [...answer.values]], ["Optimum", 3, [false, true, false]]);
  is((await solveText("p cnf 2 1\n1 2 0\n", { format: "cnf" })).report, "s SATISFIABLE\nv -1 2 0\n");
  const { model } = await covered(Model);
  is(model.solveText(new TextEncoder().encode(text), { nodes: 5 }).cost, 3);
  for (const [bad, format, code, line] of [
    ["1 x1 >= 1 ;\n1 x1 x2 >= 1 ;\n", "opb", "NonLinear", 2],
    ["max: 1 x1 ;\n", "opb", "Syntax", 1],
    ["p cnf 1 1\n1 0\n", "opb", "Unfinished", 1],
    ["", "cnf", "BadHeader", 1],
  ]) {
    await refused(code, () => model.solveText(bad, { format }), model);
    const fault = await solveText(bad, { format }).catch((it) => it);
    is([fault instanceof RefusedText, fault.line, fault.report.startsWith("c refused: ")], [true, line, true]);
  }
}

/** What no caller ought to hand over: each has its name, and the model is as before. */
async function badInput(Kind) {
  const { model, x, y } = await covered(Kind);
  for (const literal of [1.5, "x", NaN, Infinity, 2n, null, undefined, {}, [x]]) {
    await refused("BadArgument", () => model.clause([literal]), model);
    await refused("BadArgument", () => model.solve({ assuming: [y, literal] }), model);
    await refused("BadArgument", () => model.add([[1, literal]], ">=", 1), model);
  }
  for (const literal of [0, 4, -4, 2 ** 31, -(2 ** 40)]) {
    await refused("BadVariable", () => model.clause([x, literal]), model);
    await refused("BadVariable", () => model.add([[1, literal]], ">=", 1), model);
  }
  await badSums(Kind);
  await badQuestions(Kind);
  const none = await model.solve({ assuming: [x.not(), y.not()] });
  is([none.status, none.cost, none.values], ["Unsatisfiable", null, null]);
  await refused("NoAnswer", () => none.get(x));
  is(model.size, 3, "a refused call made a variable");
  model.close?.();
}

async function badSums(Kind) {
  const { model, x, y } = await covered(Kind);
  for (const coefficient of [0.5, "2", NaN, 2 ** 53, null, x]) {
    await refused("BadArgument", () => model.add([[coefficient, x]], ">=", 1), model);
    await refused("BadArgument", () => x.times(coefficient), model);
  }
  for (const sum of ["x + y", null, [x, y], [[1, x, y]], {}, true]) {
    await refused("BadArgument", () => model.add(sum, ">=", 1), model);
    await refused("BadArgument", () => model.minimise(sum), model);
  }
  for (const relation of [">", "<", "!=", "=>", "toString", undefined, 0]) {
    await refused("BadArgument", () => model.add(x, relation, 1), model);
  }
  await refused("TooLarge", () => model.add([[2n ** 63n, x]], ">=", 1), model);
  await refused("TooLarge", () => model.add(x, ">=", 2n ** 64n), model);
  await refused("BadArgument", async () => +x, model);
  model.close?.();
}

async function badQuestions(Kind) {
  const { model, x } = await covered(Kind);
  const { x: foreign } = await covered(Model);
  for (const nodes of [-1, 0.5, "1", 2n ** 64n - 1n]) await refused("BadArgument", () => model.solve({ nodes }), model);
  await refused("ForeignLiteral", () => model.clause([x, foreign]), model);
  await refused("ForeignLiteral", () => model.add(foreign.plus(foreign), ">=", 1), model);
  await refused("ForeignLiteral", () => x.plus(foreign), model);
  await refused("ForeignLiteral", () => model.implies(x, foreign), model);
  await refused("NameTaken", () => model.variable("x"), model);
  await refused("NameTaken", () => model.variables("a b a"), model);
  await refused("BadArgument", () => model.variable(7), model);
  await refused("BadArgument", () => model.variables(-1), model);
  await refused("BadVariable", () => model.variables(2 ** 20), model);
  await refused("BadVariable", () => model.get("a"), model);
  await refused("BadArgument", () => model.clause("xy"), model);
  await refused("BadArgument", () => model.fixed({ among: "most" }), model);
  await refused("BadArgument", () => model.solveText("", { format: "lp" }), model);
  await refused("BadArgument", () => model.solveText(7), model);
  await refused("TooLarge", () => model.solveText("1 x1 >= 1 ;\n".repeat(8_400_000)), model);
  is(model.size, 3, "a refused call made a variable");
  model.close?.();
}

async function modules() {
  const bytes = readFileSync(`${dist}/pbcube.wasm`);
  for (const length of [0, 4, 8, 1000, bytes.length - 1]) {
    await refused("BadModule", () => Model.create({ wasm: bytes.subarray(0, length) }));
  }
  await refused("BadModule", () => Model.create({ wasm: new Uint8Array([0, 0x61, 0x73, 0x6d, 1, 0, 0, 0]) }));
  for (const Kind of [Model, Solver]) await refused("BadArgument", () => Kind.create({ memory: 0.5 }));
  await refused("Memory", () => Model.create({ memory: 10 }));
  const { model } = await covered(Model, { wasm: await WebAssembly.compile(bytes) });
  is(model.solve().cost, 3);
}

/** With each limit of memory a run ends as one without a limit, or in the code `Memory` and no other; after that code every call still
 * has an answer or that code. */
async function refusedMemory() {
  const ends = { Memory: 0, whole: 0 };
  const owed = [[], [], []]; // the costs that each question had
  const counted = (call) => {
    try {
      return call();
    } catch (fault) {
      assert.equal(fault.code, "Memory", fault.stack);
      ends.Memory++;
      return undefined;
    }
  };
  for (let memory = 200; memory < 1_000_000; memory += 16 + (memory >> 6)) {
    const model = await Model.create({ memory }).catch((fault) => assert.equal(fault.code, "Memory"));
    if (!model) continue;
    const them = model.variables(12);
    const before = ends.Memory;
    for (let place = 0; place < 12; place++) {
      counted(() => model.add([[3, them[place]], [2, them[(place + 1) % 12].not()], [1, them[(place + 5) % 12]]], ">=", 2));
    }
    counted(() => model.minimise(them.map((it, place) => [1 + (place % 3), it])));
    const isTold = ends.Memory === before;
    const costs = [1, 2, 3].map((count) => counted(() => model.solve({ assuming: them.slice(0, count) }))?.cost);
    counted(() => model.explain(them.slice(0, 6).map((it) => it.not())));
    counted(() => model.fixed());
    counted(() => model.solveText("min: 2 x1 3 x2 ;\n1 x1 1 x2 >= 1 ;\n"));
    if (isTold) costs.forEach((cost, place) => cost === undefined || owed[place].push(cost));
    if (ends.Memory === before) ends.whole++;
  }
  for (const costs of owed) is(new Set(costs).size, 1, `with memory refused: ${costs}`);
  is(ends.Memory > 100 && ends.whole > 50, true, `of memory: ${JSON.stringify(ends)}`);
}

/** Cores and statuses of each length are written where there is room for them, and nothing else is. */
async function lengths() {
  const model = await Model.create();
  for (let count = 1; count <= 80; count++) {
    const them = model.variables(1).concat(Array.from({ length: model.size - 1 }, (_, place) => place + 1));
    model.clause(them.slice(0, 1));
    const why = model.explain(them.map((it) => (it.not ? it.not() : it)));
    is([why.core.length, why.core[0].number], [1, -count]);
    is(model.fixed({ assuming: them }).get(count), true);
  }
}

async function manyQuestions() {
  const model = await Model.create();
  const them = model.variables(30);
  for (let place = 0; place < 60; place++) model.clause([7, 11, 13].map((step) => them[(place * step) % 30]));
  model.minimise(them.map((it, place) => [1 + (place % 7), it]));
  const ask = (number) => {
    const assuming = [them[number % 30], them[(number * 7 + 1) % 30].not()];
    if (number % 4 === 0) model.explain(assuming);
    else if (number % 4 === 1) model.fixed({ assuming });
    else model.solve({ assuming });
  };
  for (let number = 0; number < 500; number++) ask(number);
  const { memory } = model;
  for (let number = 500; number < 10_500; number++) ask(number);
  is(model.memory, memory, "memory that questions take");
}

/** A solver ends a question at once, is in one call at a time, and goes on with what it was told. */
async function workers() {
  const solver = await Solver.create();
  const them = await solver.variables(60);
  for (let place = 0; place < 60; place++) {
    for (let other = 1; other <= 20; other++) await solver.clause([them[place], them[(place * other + other * other + 7) % 60]]);
  }
  const hard = hardText(60);
  const begun = performance.now();
  await assert.rejects(solver.solveText(hard, { signal: AbortSignal.timeout(300) }), { name: "TimeoutError" });
  is(performance.now() - begun < 10_000, true, "an abort that takes longer");
  await refused("Busy", async () => {
    const first = solver.solve();
    try {
      await solver.solve();
    } finally {
      await first;
    }
  });
  is((await solver.solve({ assuming: [them[0].not()] })).status, "Satisfiable");
  const gone = AbortSignal.abort(new Error("gone"));
  await assert.rejects(solver.solve({ signal: gone }), { message: "gone" });
  is((await solver.explain([them[0]])).status, "Satisfiable");
  const asked = solver.solveText(hard);
  setTimeout(() => solver.close(), 100);
  await refused("Ended", () => asked);
  is((await solver.solve()).status, "Satisfiable");
  await refused("Syntax", () => solver.solveText("1 ;"));
  await refused("Memory", async () => (await covered(Solver, { memory: 100 })).model.solve());
  solver.close();
}

/** Even numbers that are to add up to an odd one: a search has to go through nearly all their sums. */
function hardText(count) {
  const numbers = Array.from({ length: count }, (_, place) => 2 * (1000 + ((place * place * 37) % 499)));
  const half = numbers.reduce((sum, number) => sum + number / 2, 0);
  return `${numbers.map((number, place) => `${number} x${place + 1}`).join(" ")} = ${half % 2 === 0 ? half + 1 : half} ;`;
}

/** Each class has the methods that are declared, and no others. */
function declarations() {
  const declared = readFileSync(`${dist}/pbcube.d.ts`, "utf8");
  const names = [...declared.matchAll(/^export (?:class|function) (\w+)/gm)].map(([, name]) => name);
  is(Object.keys(pbcube).sort(), names.sort());
  for (const [, name, body] of declared.matchAll(/^export class (\w+).*?\{\n(.*?)^\}/gms)) {
    const methods = [...body.matchAll(/^ {2}(\w+)\(/gm)].map(([, method]) => method);
    for (const method of methods) is(typeof pbcube[name].prototype[method], "function", `${name}.${method}`);
    const own = Object.getOwnPropertyNames(pbcube[name].prototype).filter((it) => it !== "constructor");
    const told = new Set([...methods, ...[...body.matchAll(/^ {2}readonly (\w+)/gm)].map(([, property]) => property)]);
    is(own.filter((it) => !told.has(it) && it !== "toMessage"), [], `${name} has what is not declared`);
    for (const [, method] of body.matchAll(/^ {2}static (\w+)\(/gm)) is(typeof pbcube[name][method], "function", `${name}.${method}`);
  }
}

const begun = performance.now();
await Model.create();
const created = performance.now() - begun;
declarations();
for (const Kind of [Model, Solver]) await worked(Kind);
await wholeNumbers();
await starts();
await texts();
for (const Kind of [Model, Solver]) await badInput(Kind);
await modules();
await refusedMemory();
await lengths();
await manyQuestions();
await workers();
console.log(`${checks} checks; the first model took ${created.toFixed(0)} ms`);
