/** The other end of a `Solver`: one session, which a worker holds. */
import { PbcubeError } from "./errors.mjs";
import { Session } from "./session.mjs";

/** Answers each message that `listen` hands over, in its turn, by `send`. The first one makes the session. */
export function serve(listen, send) {
  let session;
  listen(async ({ options, statements, question }) => {
    try {
      session ??= await Session.create(options);
      for (const statement of statements) session.tell(statement);
      send({ reply: session.ask(question) });
    } catch (fault) {
      const told = fault instanceof PbcubeError ? fault : new PbcubeError("Stopped", `${fault}`);
      send({ fault: told.toMessage() });
    }
  });
}
