/** Loads the page in a browser, uses each part of it, and checks what it shows: page.mjs BROWSER PAGE [PICTURE]. */
import assert from "node:assert/strict";
import { readFileSync, writeFileSync } from "node:fs";
import { createServer } from "node:http";
import { basename, dirname, join } from "node:path";
import { pathToFileURL } from "node:url";
import { Page } from "./browsing.mjs";
import { randomsOf } from "./randoms.mjs";

const [, , browser, file, picture] = process.argv;
const folder = dirname(file);
const examples = join(folder, "../../../examples");
const { Model } = await import(pathToFileURL(join(folder, "../dist/pbcube.mjs")));
const { productLine, tellProductLine } = await import(pathToFileURL(join(folder, "features.mjs")));
const CLICKS = 30;
const PIGEONS = 11;
const told = [];

const solve = (text, format) => {
  const at = (selector) => document.querySelector(selector);
  if (text !== null) {
    at("#text").value = text;
    at("#format").value = format;
  }
  at("#answer").replaceChildren();
  at("#solve").click();
};
const isDone = () => !document.querySelector("#solve").disabled;
const answer = () => document.querySelector("#answer").innerText;

async function texts(page) {
  const names = await page.value(() => [...document.querySelectorAll("#example option")].map((it) => it.value));
  assert(names.length >= 8, `${names}`);
  for (const name of names) {
    await page.value((it) => {
      const choice = document.querySelector("#example");
      choice.value = it;
      choice.dispatchEvent(new Event("change"));
    }, name);
    await page.value(solve, null);
    await page.until(isDone);
    const report = await page.value(() => document.querySelector("#report")?.textContent);
    assert.equal(report, readFileSync(join(examples, name.replace(/\.\w+$/, ".expected")), "utf8"), name);
  }
  told.push(`${names.length} examples`);
  await page.value(solve, "1 x1 >= 1 ;\n1 x1 x2 >= 1 ;\n", "opb");
  await page.until(isDone);
  const shown = await page.value(() => [document.querySelector("#answer .fault").innerText, document.querySelector(".faulty").innerText]);
  assert.match(shown[0], /^$|NonLinear at line 2: put a new variable/);
  assert.equal(shown[1], "1 x1 x2 >= 1 ;");
}

/** What is told of the decisions: the whole budget where it ended the search, and else no more than that. */
async function budgets(page) {
  const give = (nodes) => (document.querySelector("#nodes").value = nodes);
  for (const [nodes, owed] of [["3", /3, the whole budget/], ["1000000", /at most 1000000/]]) {
    await page.value(give, nodes);
    await page.value(solve, pigeons(4), "opb");
    await page.until(isDone);
    assert.match(await page.value(answer), owed);
  }
  await page.value(give, "");
}

async function stops(page) {
  await page.value(solve, pigeons(PIGEONS), "opb");
  await new Promise((resolve) => setTimeout(resolve, 500));
  assert.match(await page.value(answer), /Searching/);
  const begun = Date.now();
  await page.value(() => document.querySelector("#stop").click());
  await page.until(isDone);
  assert.equal(await page.value(answer), "Stopped.");
  told.push(`a search stopped within ${Date.now() - begun} ms`);
  await page.value(solve, "1 x1 >= 1 ;\n", "opb");
  await page.until(isDone);
  assert.match(await page.value(answer), /SATISFIABLE/);
}

function pigeons(holes) {
  const at = (pigeon, hole) => pigeon * holes + hole + 1;
  const places = Array.from({ length: holes }, (_, hole) => hole);
  const lines = [];
  for (let pigeon = 0; pigeon <= holes; pigeon++) {
    lines.push(`${places.map((hole) => `1 x${at(pigeon, hole)}`).join(" ")} >= 1 ;`);
    for (let other = 0; other < pigeon; other++) {
      for (const hole of places) lines.push(`1 ~x${at(pigeon, hole)} 1 ~x${at(other, hole)} >= 1 ;`);
    }
  }
  return lines.join("\n");
}

const states = () => [...document.querySelectorAll("#options button")].map((it) => it.dataset.state);

/** Clicks options, and compares what is shown with what a model answers to a question for each value of each option. */
async function configurator(page) {
  const { below } = randomsOf(7);
  const times = [];
  for (let click = 0; click < CLICKS; click++) {
    const now = await page.value(states);
    const places = [...now.keys()].filter((place) => now[place] === (click % 6 === 5 ? "chosen" : "free"));
    times.push(await clicked(page, `#options button[data-place="${places[below(places.length)]}"]`));
  }
  times.sort((one, other) => one - other);
  told.push(`${CLICKS} clicks, in ${times[CLICKS / 2].toFixed(0)} ms in the median and at most ${times.at(-1).toFixed(0)}`);
  const found = await page.value(states);
  const model = await Model.create();
  const options = await tellProductLine(model);
  const chosen = options.filter((_, place) => found[place] === "chosen");
  const can = (literal) => model.solve({ assuming: [...chosen, literal] }).status === "Optimum";
  const owed = options.map((it) => (chosen.includes(it) ? "chosen" : !can(it) ? "impossible" : can(it.not()) ? "free" : "forced"));
  assert.deepEqual(found, owed);
  const price = await page.value(() => document.querySelector("#price").textContent);
  assert.equal(price, `${model.solve({ assuming: chosen }).cost} €`);
  await reasons(page, found, model, chosen);
  await clicked(page, "#cheapest");
  const taken = (await page.value(states)).map((state) => state === "chosen");
  assert.deepEqual(taken, [...model.solve({ assuming: chosen }).values]);
  assert.equal(await page.value(() => document.querySelector("#price").textContent), price);
}

/** Clicks a button that asks, and answers how long that took by the page. */
async function clicked(page, button) {
  const before = await page.value((it) => {
    const { dataset } = document.querySelector("#click-time");
    document.querySelector(it).click();
    return Number(dataset.asked);
  }, button);
  await page.until((it) => Number(document.querySelector("#click-time").dataset.asked) > it, before);
  return page.value(() => Number(document.querySelector("#click-time").dataset.milliseconds));
}

/** Each reason that is told is a core: nothing is feasible under the choices that it names. */
async function reasons(page, found, model, chosen) {
  const { options } = productLine();
  const asked = [...found.keys()].filter((place) => found[place] === "impossible" || found[place] === "forced").slice(0, 12);
  assert(asked.length > 0, "nothing is impossible or forced");
  for (const place of asked) {
    await page.value((it) => document.querySelectorAll("#options button")[it].click(), place);
    await page.until((name) => document.querySelector("#why").innerText.startsWith(`${name} is `), options[place].name);
    const why = await page.value(() => document.querySelector("#why").innerText);
    const named = chosen.filter((it) => why.split(". ")[0].includes(it.name));
    const literal = model.get(options[place].name);
    const isImpossible = found[place] === "impossible";
    const { status } = model.solve({ assuming: [...named, isImpossible ? literal : literal.not()] });
    assert.equal(status, "Unsatisfiable", why);
  }
  told.push(`${asked.length} reasons`);
}

async function pictures(page) {
  await page.value(() => document.querySelector("#draw-schedule").click());
  await page.until(() => document.querySelector(".schedule caption"));
  const wanted = await page.value(() => [...document.querySelectorAll(".schedule td[data-shift]")].map((it) => it.dataset.shift));
  assert.deepEqual(["early", "late", "night"].map((it) => wanted.filter((shift) => shift === it).length), [14, 14, 7]);
  await page.value(() => document.querySelector("#draw-picture").click());
  await page.until(() => document.querySelector("#picture-time").textContent);
  const wrong = await page.value(() => {
    const rows = [...document.querySelector(".picture").rows].map((row) => [...row.cells]);
    const drawn = (cells) => cells.map((it) => (it.className === "dark" ? "#" : " ")).join("");
    const runs = (cells) => (drawn(cells).match(/#+/g) ?? []).map((it) => it.length);
    const across = rows.slice(1).filter((row) => runs(row.slice(1)).join(" ") !== row[0].textContent);
    const down = rows[0].slice(1).filter((head, at) => runs(rows.slice(1).map((row) => row[at + 1])).join("\n") !== head.textContent);
    return across.length + down.length;
  });
  assert.equal(wrong, 0, "lines of the picture that are not as their numbers tell");
  const took = await page.value(() => ["schedule", "picture"].map((it) => document.querySelector(`#${it}-time`).textContent));
  told.push(`the schedule in ${took[0]}, the picture in ${took[1]}`);
}

/** By the keyboard alone, and on a phone. */
async function ways(page) {
  await page.value(() => document.querySelector("#clear").focus());
  await page.press("Enter", 13, "\r");
  await page.until(() => !document.querySelector("#options [data-state=chosen]"));
  await page.press("Tab", 9);
  await page.press(" ", 32, " ");
  await page.until(() => document.activeElement.dataset.state === "chosen");
  await page.call("Emulation.setDeviceMetricsOverride", { width: 390, height: 844, deviceScaleFactor: 2, mobile: true });
  assert.equal(await page.value(() => document.scrollingElement.scrollWidth <= innerWidth), true, "wider than a phone");
  await page.call("Emulation.clearDeviceMetricsOverride");
}

/** The modules of dist/ as a web server has them: a model, and a solver in a worker of the file beside it. */
async function modules(page) {
  const server = createServer(({ url }, response) => {
    const name = basename(url);
    const kinds = { mjs: "text/javascript", wasm: "application/wasm" };
    if (!name) return response.setHeader("content-type", "text/html").end("<title>served</title><link rel=icon href=data:,>");
    return response.setHeader("content-type", kinds[name.split(".").at(-1)]).end(readFileSync(join(folder, "../dist", name)));
  });
  await new Promise((resolve) => server.listen(0, "127.0.0.1", resolve));
  await page.call("Page.navigate", { url: `http://127.0.0.1:${server.address().port}/` });
  await page.until(() => document.title === "served");
  const found = await page.value(async (hard) => {
    const { Model, Solver } = await import("/pbcube.mjs");
    const costs = [];
    for (const Kind of [Model, Solver]) {
      const model = await Kind.create();
      const [x, y] = await model.variables(2);
      await model.minimise([[3, x], [2, y]]);
      await model.clause([x, y]);
      if (Kind === Solver) {
        const fault = await model.solveText(hard, { signal: AbortSignal.timeout(200) }).catch((it) => it);
        costs.push(fault.name);
      }
      costs.push((await model.solve()).cost, (await model.solve({ assuming: [y.not()] })).cost);
    }
    return costs;
  }, pigeons(PIGEONS));
  assert.deepEqual(found, [2, 3, "TimeoutError", 2, 3]);
  server.close();
  told.push("the modules from a server");
}

async function write(page, name, scheme) {
  await page.call("Emulation.setEmulatedMedia", { features: [{ name: "prefers-color-scheme", value: scheme }] });
  await page.call("Emulation.setDeviceMetricsOverride", { width: 1100, height: 1400, deviceScaleFactor: 1, mobile: false });
  await page.value(() => scrollTo(0, 0));
  const { data } = await page.call("Page.captureScreenshot", { captureBeyondViewport: true });
  writeFileSync(name, Buffer.from(data, "base64"));
}

const page = await Page.open(browser);
try {
  await page.call("Page.navigate", { url: String(pathToFileURL(file)) });
  await page.until(() => document.documentElement?.dataset.ready === "yes");
  for (const part of [texts, budgets, stops, configurator, pictures, ways]) await part(page);
  if (picture) await write(page, picture, "light");
  await modules(page);
  assert.deepEqual(page.errors, []);
  console.log(told.join("; "));
} finally {
  await page.close();
}
