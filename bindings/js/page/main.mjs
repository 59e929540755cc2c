/** The page: its parts, each with a solver of its own. */
import { Solver } from "../src/solver.mjs";
import { isSupported, moduleOf } from "../src/engine.mjs";
import { Configurator } from "./configurator.mjs";
import { faultText } from "./elements.mjs";
import { drawPicture } from "./picture.mjs";
import { drawSchedule } from "./schedule.mjs";
import { Texts } from "./texts_part.mjs";

/** Begins all parts, with the bytes of the module, what makes a worker, and the examples by name. */
export async function begin(bytes, worker, examples) {
  const at = (selector) => document.querySelector(selector);
  const texts = new Texts(at("#texts"), examples);
  const configurator = new Configurator(at("#configurator"));
  if (!isSupported()) {
    at("#needs").hidden = false;
    return;
  }
  try {
    const wasm = await moduleOf(bytes);
    const made = () => Solver.create({ wasm, worker });
    texts.begin(await made());
    await configurator.begin(await made(), await made());
    at("#draw-schedule").addEventListener("click", () => draw(drawSchedule, "#schedule"));
    at("#draw-picture").addEventListener("click", () => draw(drawPicture, "#picture"));
    document.documentElement.dataset.ready = "yes";

    async function draw(part, selector) {
      const button = at(selector.replace("#", "#draw-"));
      button.disabled = true;
      at(selector).replaceChildren("Searching ..");
      const begun = performance.now();
      const solver = await made();
      try {
        await part(solver, at(selector));
        at(`${selector}-time`).textContent = `${(performance.now() - begun).toFixed(0)} ms, with the drawing`;
      } catch (fault) {
        at(selector).replaceChildren(faultText(fault));
      }
      solver.close();
      button.disabled = false;
    }
  } catch (fault) {
    at("#fault").hidden = false;
    at("#fault").textContent = faultText(fault);
  }
}
