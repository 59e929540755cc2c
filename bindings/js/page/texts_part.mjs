/** A text is typed, dropped or chosen, and solved. */
import { beginning } from "../src/texts.mjs";
import { element, faultText } from "./elements.mjs";

const AROUND = 2; // lines that are shown before and after a fault
const CUT = ["Unknown", "Found"]; // the statuses of a search that its budget ended

/** The part of the page with this solver and these examples, by name. */
export class Texts {
  #solver;
  #place;
  #examples;
  #stop = null;

  constructor(place, examples) {
    this.#place = place;
    this.#examples = examples;
    const choice = this.#at("#example");
    for (const name of Object.keys(examples)) choice.append(element("option", {}, name));
    choice.addEventListener("change", () => this.choose(choice.value));
    this.#at("#file").addEventListener("change", (event) => this.#read(event.target.files[0]));
    const area = this.#at("#text");
    area.addEventListener("dragover", (event) => event.preventDefault());
    area.addEventListener("drop", (event) => {
      event.preventDefault();
      this.#read(event.dataTransfer.files[0]);
    });
    area.addEventListener("keydown", (event) => event.key === "Enter" && (event.ctrlKey || event.metaKey) && this.solve());
    this.#at("#solve").addEventListener("click", () => this.solve());
    this.#at("#stop").addEventListener("click", () => this.#stop?.abort());
    this.choose(Object.keys(examples)[0]);
  }

  begin(solver) {
    this.#solver = solver;
    this.#at("#solve").disabled = false;
  }

  #at(selector) {
    return this.#place.querySelector(selector);
  }

  /** Puts an example into the text. */
  choose(name) {
    this.#at("#text").value = this.#examples[name];
    this.#at("#format").value = name.split(".").at(-1);
    this.#at("#example").value = name;
  }

  async #read(file) {
    if (!file) return;
    const text = await file.text();
    this.#at("#text").value = text;
    this.#at("#format").value = beginning(text) || (/\.i?cnf$/.exec(file.name)?.[0].slice(1) ?? "opb");
  }

  /** Solves the text, and shows the answer or the fault. */
  async solve() {
    const text = this.#at("#text").value;
    const format = this.#at("#format").value;
    const nodes = this.#at("#nodes").value || undefined;
    this.#stop = new AbortController();
    this.#isUnderWay(true);
    const begun = performance.now();
    try {
      const budget = nodes === undefined ? undefined : Number(nodes);
      const answer = await this.#solver.solveText(text, { format, nodes: budget, signal: this.#stop.signal });
      this.#show(answer, performance.now() - begun, budget);
    } catch (fault) {
      this.#refuse(fault, text);
    }
    this.#isUnderWay(false);
  }

  #isUnderWay(is) {
    this.#at("#solve").disabled = is;
    this.#at("#stop").disabled = !is;
    if (is) this.#at("#answer").replaceChildren("Searching ..");
  }

  #show({ status, cost, values, report }, took, budget) {
    const true_ = values?.filter(Boolean).length;
    const rows = [
      ["Answer", status],
      ["Cost", cost],
      ["True variables", values && `${true_} of ${values.length}`],
      ["Time", `${took.toFixed(1)} ms`],
      ["Decisions", budget === undefined ? null : decisions(status, budget)],
    ].filter(([, told]) => told !== null && told !== undefined);
    const row = ([head, told]) => element("tr", {}, element("th", { scope: "row" }, head), element("td", {}, `${told}`));
    const table = element("table", {}, ...rows.map(row));
    this.#at("#answer").replaceChildren(table, ...this.#saved(report));
  }

  #refuse(fault, text) {
    if (fault?.name === "AbortError") {
      this.#at("#answer").replaceChildren("Stopped.");
      return;
    }
    const shown = [element("p", { class: "fault" }, faultText(fault))];
    if (fault?.line) shown.push(excerpt(text, fault.line), ...this.#saved(fault.report));
    this.#at("#answer").replaceChildren(...shown);
    if (fault?.line) this.#select(text, fault.line);
  }

  /** The report, and a link that saves it. */
  #saved(report) {
    const url = URL.createObjectURL(new Blob([report], { type: "text/plain" }));
    const link = element("a", { href: url, download: "report.txt" }, "Save the report");
    return [element("pre", { id: "report", tabindex: "0" }, report), link];
  }

  #select(text, line) {
    const lines = text.split("\n");
    const begins = lines.slice(0, line - 1).join("\n").length + (line > 1 ? 1 : 0);
    this.#at("#text").setSelectionRange(begins, begins + (lines[line - 1]?.length ?? 0));
  }
}

/** How many decisions a search with a budget made: all that it was allowed where it was cut, and else no more than these. */
function decisions(status, budget) {
  return CUT.includes(status) ? `${budget}, the whole budget` : `at most ${budget}`;
}

/** The lines around a fault, by their numbers. */
function excerpt(text, line) {
  const lines = text.split("\n");
  const first = Math.max(0, line - 1 - AROUND);
  const rows = lines.slice(first, line + AROUND).map((it, place) => {
    const number = first + place + 1;
    return element("li", { value: number, ...(number === line ? { class: "faulty", "aria-current": "true" } : {}) }, it || " ");
  });
  return element("ol", { class: "excerpt" }, ...rows);
}
