/** A staff schedule, drawn as a grid. */
import { element } from "./elements.mjs";

const PEOPLE = ["Ada", "Ben", "Cleo", "Dan", "Eva", "Finn", "Gina", "Hugo"];
const DAYS = ["Mon", "Tue", "Wed", "Thu", "Fri", "Sat", "Sun"];
const SHIFTS = ["early", "late", "night"];
const WANTED = [2, 2, 1]; // people on each shift
const MOST_DAYS = 5;
const WEEKEND = [5, 6]; // on which all would rather be at home
const RATHER_NOT = [ // a person, a day and a shift that this person would rather not have
  [0, 0, 0], [0, 1, 0], [0, 2, 0], [1, 0, 0], [1, 1, 0], [2, 4, 1], [2, 3, 1], [3, 2, 2], [3, 3, 2], [4, 0, 1], [5, 4, 0],
  [6, 0, 2], [6, 1, 2], [6, 2, 2], [7, 3, 1], [7, 4, 1],
];

/** Draws the schedule with the fewest shifts that somebody would rather not have. */
export async function drawSchedule(solver, place) {
  const on = []; // by day, shift and person
  for (const day of DAYS) {
    on.push([]);
    for (const shift of SHIFTS) on.at(-1).push(await solver.variables(PEOPLE.map((person) => `${person} ${day} ${shift}`)));
  }
  const of = (person, day) => on[day].map((people) => people[person]);
  for (let day = 0; day < DAYS.length; day++) {
    for (let shift = 0; shift < SHIFTS.length; shift++) await solver.exactly(WANTED[shift], on[day][shift]);
    for (let person = 0; person < PEOPLE.length; person++) {
      await solver.atMost(1, of(person, day));
      const [early, late] = day + 1 < DAYS.length ? of(person, day + 1) : [];
      if (early) await solver.atMost(1, [on[day][2][person], early, late]); // rest after a night
    }
  }
  for (let person = 0; person < PEOPLE.length; person++) await solver.atMost(MOST_DAYS, DAYS.flatMap((_, day) => of(person, day)));
  const weekend = WEEKEND.flatMap((day) => on[day].flat());
  const others = RATHER_NOT.map(([person, day, shift]) => on[day][shift][person]);
  await solver.minimise([...weekend, ...others].map((it) => [1, it]));
  const answer = await solver.solve();
  place.replaceChildren(grid(on, answer));
  return answer;
}

function grid(on, answer) {
  const head = element("tr", {}, element("td"), ...DAYS.map((day) => element("th", { scope: "col" }, day)));
  const rows = PEOPLE.map((person, at) => {
    const cells = on.map((shifts) => {
      const shift = shifts.findIndex((people) => answer.get(people[at]));
      return element("td", { "data-shift": SHIFTS[shift] ?? "off" }, SHIFTS[shift] ?? "–");
    });
    return element("tr", {}, element("th", { scope: "row" }, person), ...cells);
  });
  const caption = element("caption", {}, `${answer.cost} shifts that somebody would rather not have: no schedule has fewer`);
  return element("table", { class: "schedule" }, caption, head, ...rows);
}
