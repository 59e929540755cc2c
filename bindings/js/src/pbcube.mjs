/** A pseudo-Boolean optimiser whose answer is proved, as a WebAssembly module. */
export { Answer, Explanation, Fixed } from "./answers.mjs";
export { isSupported } from "./engine.mjs";
export { PbcubeError, RefusedText } from "./errors.mjs";
export { Model, solveText } from "./model.mjs";
export { Solver } from "./solver.mjs";
export { Literal, Sum, total } from "./sums.mjs";
