// Uses each name of cgrlist.mjs, with its type, for a compiler of TypeScript.
import * as cgrlist from "../../tools/cgrlist/engine/cgrlist.mjs";

const { Plan, Engine, CgrlistError } = cgrlist;

/** What a plan answers. */
export async function answers(text: string): Promise<(bigint | number | boolean | string | undefined)[]> {
  const plan = await Plan.read(text);
  const asked: cgrlist.Request = { from: 31, to: 1n, at: new Date(0), avoid: [2] };
  const { routes, more, session = "" } = await plan.first({ ...asked, count: 3, keep: true });
  const first: cgrlist.Route = routes[0];
  const next: cgrlist.Page = await plan.next({ session });
  const { hops, fault }: cgrlist.Explanation = await plan.explain(asked, first.contacts);
  const [{ line }] = await plan.many([asked], 1);
  const [{ route }] = await plan.follow([{ ...asked, contacts: [4, 11] }]);
  const rooms: bigint[] = plan.contacts.map(({ rate, start, end }) => rate * BigInt(end - start));
  const told = [cgrlist.HOP_FAULTS[fault?.reason ?? "WrongEnd"], cgrlist.SESSION_FAULTS.BadLine];
  return [first.rank, first.entry, more, next.more, hops[0].send, ...told, line, route?.delivery, rooms[0], await plan.verify(session)];
}

/** What a worker answers, and what it is refused with. */
export async function asked(run: cgrlist.Run): Promise<string> {
  const engine = new Engine(cgrlist.moduleBytes());
  try {
    const { report }: cgrlist.Answer = await engine.ask(run, { plan: "" });
    engine.stop();
    return (await engine.started) + report + cgrlist.timeText(cgrlist.secondsOf("1970/01/01-00:00:00"));
  } catch (error) {
    const known = error instanceof CgrlistError && error.status !== cgrlist.STOPPED && error.status !== cgrlist.NO_PROGRAM;
    return known ? `${error.line}: ${error.hint ?? cgrlist.REPAIRS.BadTime}` : String(await cgrlist.programOf(new Uint8Array()));
  }
}
