// Answers what tests/engine.py asks, by the module whose path is given: JSON in, JSON out.
import { readFileSync } from "node:fs";
import * as cgrlist from "../../tools/cgrlist/engine/cgrlist.mjs";
import { answersInSteps, answersTo } from "./asking.mjs";

const program = await cgrlist.programOf(readFileSync(process.argv[2]));

/** What is asked of the objects of cgrlist.mjs over a plan: for each call its name and what it is given. */
async function objects(plan, calls) {
  const opened = await cgrlist.Plan.read(plan, program);
  const answers = [];
  for (const [name, ...given] of calls) {
    answers.push(await opened[name](...given).catch(({ name, status, message, line, hint }) => ({ name, status, message, line, hint })));
  }
  return { ...opened, answers };
}

/** The names that the module exports, and those of its classes' methods and fields. */
function names() {
  const methods = ({ prototype }) => Object.getOwnPropertyNames(prototype).filter((name) => name !== "constructor");
  const engine = Object.keys(new cgrlist.Engine(new Uint8Array()));
  return { module: Object.keys(cgrlist), Plan: methods(cgrlist.Plan), Engine: [...methods(cgrlist.Engine), ...engine] };
}

const ASKED = {
  runs: ({ questions }) => answersTo(questions, (run, texts) => program.ask(run, texts)),
  steps: ({ questions }) => answersTo(questions, (run, texts, how) => answersInSteps(program, run, texts, how)),
  objects: ({ plan, calls }) => objects(plan, calls),
  names,
  repairs: () => cgrlist.REPAIRS,
};

const asked = JSON.parse(readFileSync(0, "utf8"));
const answer = await ASKED[asked.what](asked);
process.stdout.write(JSON.stringify(answer, (_, it) => (typeof it === "bigint" ? `${it}` : it)));
