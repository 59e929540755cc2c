/** Solves each text of a list, which standard input has in JSON as pairs of a format and a text in base64, and prints the reports in
 * JSON, each with the status and with the code, the line and the hint of a text that is refused. */
import { readFileSync } from "node:fs";
import { pathToFileURL } from "node:url";

const { Model } = await import(pathToFileURL(`${process.argv[2]}/pbcube.mjs`));
const model = await Model.create();

function solved([format, text]) {
  try {
    const { report, status } = model.solveText(Buffer.from(text, "base64"), { format });
    return { report, status };
  } catch ({ report, code, line, hint }) {
    return { report, code, line, hint };
  }
}

process.stdout.write(JSON.stringify(JSON.parse(readFileSync(0, "utf8")).map(solved)));
