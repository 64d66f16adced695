// What explains a violation, and what it says about the message.

// The objects of one kind that explain a violation.
export function factsOf(violation, kind) {
  return violation.facts.filter((it) => it.is === kind);
}
