// What is refused and why, and how a refused plan is repaired.

export const NO_PROGRAM = 125; // the statuses of an engine that there isn't, and of one that was stopped
export const STOPPED = 130;

/** Of each reason for which a line of a plan is refused, the usual cause and its repair. */
export const REPAIRS = {
  LineTooLong: "a long comment: break it; CR alone at the ends of lines: write LF",
  BadByte: "a letter beyond ASCII: write it otherwise",
  UnknownCommand: "an ionrc: from_ionrc makes a plan of it; 'A' or 'add': write 'a'; a blank before '#'",
  WrongOperands: "a confidence or a comment: take it off; an unknown rate: write 0",
  BadTime: "a missing zero, '*' or a negative offset: write the time in full, yyyy/mm/dd-hh:mm:ss",
  NoReference: "put a line '@ TIME' in front, with the time from which relative times count",
  BadNode: "a name, ipn:2.0 or a leading zero: write the node's number",
  BadNumber: "a fraction, a unit or an exponent: round up to a whole number",
  EmptyWindow: "an end that counts from the start: both count from the line '@'",
  SelfPair: "a loopback, as in ION's examples: take it out",
  DuplicateContact: "a contact with that start, sender and receiver stands above: take one out",
  RangeOverlap: "a range of these nodes shares a second with it: let one end where the next starts",
  TooMany: "over 20000 contacts or ranges: leave out contacts that have ended",
  NothingToDelete: "write start and nodes as in the line that added it, and below that",
};

/** Of each reason for which contacts make no route, what it means. */
export const HOP_FAULTS = {
  NoSuchContact: "no contact of that number stands: it was deleted, or never added",
  NotChained: "the contact's sender isn't the node where the bundle is",
  NodeAgain: "the contact leads to a node where the bundle was before",
  NoLight: "no range gives a light time for the second in which the contact starts",
  TooLate: "the contact has ended when the bundle is there",
  AvoidedNode: "the contact leads to a node that is avoided",
  TooManyHops: "the list has more contacts than the limit of hops allows",
  WrongEnd: "the last contact doesn't lead to the destination",
  SameNode: "source and destination are the same node",
  BadAvoid: "nodes to avoid are 1 to 16, and neither source nor destination",
};

/** Of each reason for which a session text is refused, what is wrong with it. */
export const SESSION_FAULTS = {
  BadHeader: "its first line isn't that of a session text",
  BadLine: "this line isn't as a session text has it",
  OtherPlan: "it is of another plan",
  BadRequest: "its values make no request",
  BadRoute: "the route of this line is no route of its part",
  NotClosed: "its parts don't fit together",
  BadCount: "its count of routes or its last route isn't that of its parts",
};

/** What can't be answered. Its message is the program's, without the program's name. */
export class CgrlistError extends Error {
  /**
   * @param status as the program has it: 2 for what is asked, 3 for the plan, 4 for a session or lines, 6 for memory;
   * 125 if there is no engine, and 130 if it was stopped
   * @param told the program's message
   */
  constructor(status, told) {
    const message = told.replace(/^cgrlist: /, "").trimEnd();
    super(message);
    this.name = "CgrlistError";
    this.status = status;
    const [, line, reason] = /line (\d+): (\w+)$/.exec(message) ?? [];
    /** The line of the plan, the session, the requests or the lists that is refused, from 1; undefined if none is. */
    this.line = line && Number(line);
    /** What may be wrong, and its repair; undefined if that isn't known. */
    this.hint = status === 3 ? REPAIRS[reason] : undefined;
  }
}
