/** The configurator: each click tells what is forced, what is impossible, and the least price. */
import { productLine, tellProductLine } from "./features.mjs";
import { element, faultText, inWords } from "./elements.mjs";

const WORDS = { chosen: "chosen", forced: "included", impossible: "impossible", free: "" };

/** The part of the page. It asks two solvers at a time: one that knows the rules alone says what is forced and why, and one that knows
 * the prices too says what is cheapest. Without prices the first has less to search. */
export class Configurator {
  #rules = null; // until it has begun
  #prices;
  #variables; // of the rules
  #line = productLine();
  #chosen = new Set(); // places of options
  #buttons = [];
  #least = null;
  #last = Promise.resolve(); // what is done
  #place;

  constructor(place) {
    this.#place = place;
    this.#draw();
  }

  async begin(rules, prices) {
    this.#variables = await tellProductLine(rules, false);
    await tellProductLine(prices);
    this.#rules = rules;
    this.#prices = prices;
    await this.#inTurn(() => this.#ask());
  }

  #draw() {
    const { groups, options } = this.#line;
    const list = this.#place.querySelector("#options");
    const boxes = groups.map((group) => element("fieldset", {}, element("legend", {}, group)));
    options.forEach((option, place) => {
      const button = element("button", { type: "button", "aria-pressed": "false", "data-state": "free", "data-place": place });
      button.append(element("span", {}, option.name.slice(groups[option.group].length + 1)), element("small", {}, `${option.price} €`));
      button.addEventListener("click", () => this.click(place));
      this.#buttons.push(button);
      boxes[option.group].append(button);
    });
    list.append(...boxes);
    this.#place.querySelector("#cheapest").addEventListener("click", () => this.takeLeast());
    this.#place.querySelector("#clear").addEventListener("click", () => this.drop());
  }

  /** Chooses an option, or drops it; of one that is forced or impossible it says why. */
  click(place) {
    return this.#inTurn(() => {
      const { state } = this.#buttons[place].dataset;
      if (state === "forced" || state === "impossible") return this.#explain(place, state);
      if (!this.#chosen.delete(place)) this.#chosen.add(place);
      return this.#ask();
    });
  }

  /** Chooses the options of the least price. */
  takeLeast() {
    return this.#inTurn(() => {
      this.#least.values.forEach((value, place) => value && this.#chosen.add(place));
      return this.#ask();
    });
  }

  /** Drops what was chosen: one option, or all. */
  drop(place) {
    return this.#inTurn(() => {
      if (place === undefined) this.#chosen.clear();
      else this.#chosen.delete(place);
      return this.#ask();
    });
  }

  /** Does one thing after the other, since a solver is in one call at a time. */
  #inTurn(work) {
    if (this.#rules === null) return undefined;
    this.#last = this.#last.then(work).catch((fault) => {
      this.#place.querySelector("#why").textContent = faultText(fault);
    });
    return this.#last;
  }

  #assuming() {
    return [...this.#chosen].map((place) => place + 1);
  }

  async #ask() {
    const begun = performance.now();
    const assuming = this.#assuming();
    const [fixed, least] = await Promise.all([this.#rules.fixed({ assuming }), this.#prices.solve({ assuming })]);
    this.#buttons.forEach((button, place) => this.#show(button, place, fixed.get(this.#variables[place])));
    this.#least = least;
    const took = performance.now() - begun;
    this.#place.querySelector("#price").textContent = `${this.#least.cost} €`;
    this.#place.querySelector("#count").textContent = `${this.#chosen.size} chosen`;
    const time = this.#place.querySelector("#click-time");
    time.textContent = `${took.toFixed(0)} ms`;
    time.dataset.milliseconds = took;
    time.dataset.asked = Number(time.dataset.asked ?? 0) + 1;
    this.#place.querySelector("#why").textContent = "Click an option that is included or impossible, and this says why.";
  }

  #show(button, place, value) {
    const isChosen = this.#chosen.has(place);
    const state = isChosen ? "chosen" : value === null ? "free" : value ? "forced" : "impossible";
    button.dataset.state = state;
    button.setAttribute("aria-pressed", String(isChosen || state === "forced"));
    const { name, price } = this.#line.options[place];
    button.setAttribute("aria-label", [name, `${price} euros`, WORDS[state]].filter(Boolean).join(", "));
  }

  /** Says which choices are enough for that an option is forced or impossible, and lets them be dropped. */
  async #explain(place, state) {
    const literal = this.#variables[place];
    const asked = state === "forced" ? literal.not() : literal;
    const { core } = await this.#rules.explain([...this.#assuming(), asked]);
    const choices = core.filter((it) => it.number !== asked.number).map((it) => it.number - 1);
    const names = choices.map((it) => this.#line.options[it].name);
    const why = this.#place.querySelector("#why");
    const { name } = this.#line.options[place];
    const because = names.length ? `because you chose ${inWords(names)}` : "whatever you choose";
    why.replaceChildren(`${name} is ${WORDS[state]} ${because}. `);
    for (const it of choices) {
      const drop = element("button", { type: "button" }, `Drop ${this.#line.options[it].name}`);
      drop.addEventListener("click", () => this.drop(it));
      why.append(drop, " ");
    }
  }
}
