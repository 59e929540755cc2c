/** A picture by numbers: how long the runs of dark cells are in each row and column tells which cells they are. */
import { element } from "./elements.mjs";

const ROWS = [
  [1], [2], [2], [4], [5], [6, 1], [7, 2], [8, 3], [9, 4], [10, 5], [11, 6], [1], [1], [20], [18], [3, 4, 4, 4],
  [16], [14], [2, 2, 2, 2, 2], [2, 2, 2, 2, 2],
];
const COLUMNS = [
  [1, 1], [3, 1], [1, 4, 1], [2, 5, 1], [3, 2, 3], [4, 6], [5, 5, 1], [6, 5, 1], [7, 6], [8, 2, 3], [11, 5, 1],
  [10, 5, 1], [8, 6], [8], [6, 2, 2, 1], [5, 5, 1], [4, 6], [3, 4, 1], [2, 3, 1], [1, 1, 1],
];
const STEP = 12; // milliseconds from one cell to the next

/** Solves the picture and draws it. */
export async function drawPicture(solver, place) {
  const cells = [];
  for (const _ of ROWS) cells.push(await solver.variables(COLUMNS.length));
  for (let row = 0; row < ROWS.length; row++) await addRuns(solver, cells[row], ROWS[row]);
  for (let at = 0; at < COLUMNS.length; at++) await addRuns(solver, cells.map((row) => row[at]), COLUMNS[at]);
  const answer = await solver.solve();
  const table = numbers(place);
  await paint(table, cells.map((row) => row.map((it) => answer.get(it))));
  return answer;
}

/** Has a line of cells be dark in runs of these lengths. A run begins in one of the places that leave room for the others. */
async function addRuns(solver, line, runs) {
  const rest = line.length - runs.reduce((sum, run) => sum + run, 0) - (runs.length - 1);
  const covers = line.map(() => []);
  let first = 0;
  let before = null;
  for (const run of runs) {
    const begins = await solver.variables(rest + 1);
    await solver.exactly(1, begins);
    for (let place = 0; place <= rest; place++) {
      for (let cell = first + place; cell < first + place + run; cell++) covers[cell].push(begins[place]);
      if (before) await solver.clause([begins[place].not(), ...before.slice(0, place + 1)]); // not before the one in front of it
    }
    before = begins;
    first += run + 1;
  }
  for (let cell = 0; cell < line.length; cell++) {
    for (const it of covers[cell]) await solver.implies(it, line[cell]);
    await solver.clause([line[cell].not(), ...covers[cell]]);
  }
}

/** The empty picture with its numbers. */
function numbers(place) {
  const head = element("tr", {}, element("td"), ...COLUMNS.map((runs) => element("th", { scope: "col" }, runs.join("\n"))));
  const rows = ROWS.map((runs) => element("tr", {}, element("th", { scope: "row" }, runs.join(" ")), ...COLUMNS.map(() => element("td"))));
  const table = element("table", { class: "picture" }, head, ...rows);
  place.replaceChildren(table);
  return table;
}

async function paint(table, dark) {
  const isStill = matchMedia("(prefers-reduced-motion: reduce)").matches;
  for (let row = 0; row < dark.length; row++) {
    for (let at = 0; at < dark[row].length; at++) {
      if (!dark[row][at]) continue;
      table.rows[row + 1].cells[at + 1].className = "dark";
      if (!isStill) await new Promise((resolve) => setTimeout(resolve, STEP));
    }
  }
}
