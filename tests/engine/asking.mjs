// Asks the engine what a test wants to know, in node and in pages.

/** A text of a question: as it is, so many times, or bytes in base 64. */
function made(text) {
  if (text?.times) {
    return text.text.repeat(text.times);
  }
  return text?.base64 ? Uint8Array.from(atob(text.base64), (it) => it.charCodeAt(0)) : text;
}

/** What `ask` answers to each question, one after the other; a question that has no answer has a failure. */
export async function answersTo(questions, ask) {
  const answers = [];
  for (const { run, texts, ...how } of questions) {
    try {
      const given = Object.entries(texts).map(([name, text]) => [name, made(text)]);
      answers.push(await ask(run, Object.fromEntries(given), how));
    } catch (error) {
      answers.push({ failure: String(error) });
    }
  }
  return answers;
}

/**
 * The answers to a question with more and more lent memory, from nothing, until it is enough: each before the last has
 * status 6. Where a size is given for a text, that is its room.
 */
export function answersInSteps(program, run, texts, { step, most, rooms }) {
  const answers = [];
  for (let lent = 0; lent <= most && (!lent || answers.at(-1).status === 6); lent += step) {
    answers.push(program.constructor.decoded(program.once(run, texts, lent, rooms)));
  }
  return answers;
}
