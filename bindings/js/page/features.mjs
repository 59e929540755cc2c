/** A product line: a van for travelling, with groups of options, prices, weights and rules. It is generated, and the same each time. */

const GROUPS = [
  "Engine", "Gearbox", "Drive", "Suspension", "Wheels", "Brakes", "Paint", "Roof", "Windows", "Doors",
  "Front seats", "Rear seats", "Upholstery", "Heating", "Cooling", "Kitchen", "Fridge", "Water", "Shower", "Toilet",
  "Bed", "Battery", "Solar panels", "Lighting", "Sound", "Navigation", "Cameras", "Awning", "Bicycle rack", "Towing hook",
];
const GRADES = ["Eco", "Basic", "Light", "Plus", "Comfort", "Family", "Alpine", "Coast", "Sport", "Premium"];
const NEEDED = 18; // groups from the first on, of which a van has exactly one option; of the others it has at most one
const MOST_WEIGHT = 1150;

/** Numbers that are drawn, the same ones each time. */
function drawing(seed) {
  let state = BigInt(seed);
  return (limit) => {
    state = BigInt.asUintN(64, state * 6364136223846793005n + 1442695040888963407n);
    return Number(state >> 33n) % limit;
  };
}

/** The options, each with its group, its name, its price and its weight; and the rules, each in words and as literals of options,
 * from 1 on, of which one is to be true. */
export function productLine() {
  const below = drawing(2026);
  const options = GROUPS.flatMap((group, at) =>
    GRADES.map((grade, rank) => ({
      group: at,
      name: `${group} ${grade}`,
      price: 40 + 35 * rank + 5 * below(40),
      weight: 12 + below(36) + (rank > 6 ? 12 : 0),
      power: at === 21 || at === 22 ? -(4 + 2 * rank) : at > 12 && below(3) === 0 ? 1 + below(4) : 0,
    })),
  );
  const rules = [];
  const any = (first, groups) => (first + below(groups)) * GRADES.length + below(GRADES.length) + 1;
  for (let count = 0; count < 110; count++) {
    const [one, other] = [any(0, GROUPS.length), any(0, GROUPS.length)];
    if (options[one - 1].group === options[other - 1].group) continue;
    rules.push({ text: `${options[one - 1].name} does not go with ${options[other - 1].name}`, clause: [-one, -other] });
  }
  for (let count = 0; count < 90; count++) {
    const one = any(0, GROUPS.length);
    const group = below(GROUPS.length);
    if (options[one - 1].group === group) continue;
    const first = below(GRADES.length - 4);
    const taken = [0, 1, 2, 3].map((step) => group * GRADES.length + first + step + 1);
    const names = taken.map((it) => options[it - 1].name);
    rules.push({ text: `${options[one - 1].name} needs one of ${names.join(", ")}`, clause: [-one, ...taken] });
  }
  return { groups: GROUPS, options, rules };
}

/** Tells a model or a solver the product line, with its prices where they are wanted, and answers its variables. */
export async function tellProductLine(model, hasPrices = true) {
  const { groups, options, rules } = productLine();
  const them = await model.variables(options.map((it) => it.name));
  for (let at = 0; at < groups.length; at++) {
    const own = them.filter((_, place) => options[place].group === at);
    if (at < NEEDED) await model.exactly(1, own);
    else await model.atMost(1, own);
  }
  for (const { clause } of rules) await model.clause(clause);
  await model.add(options.map((it, place) => [it.weight, them[place]]), "<=", MOST_WEIGHT);
  await model.add(options.map((it, place) => [it.power, them[place]]), "<=", 0);
  if (hasPrices) await model.minimise(options.map((it, place) => [it.price, them[place]]));
  return them;
}
