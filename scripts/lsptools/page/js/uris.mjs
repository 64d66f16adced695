// Two URIs that are spelled in different ways.

import { markedPair } from "./difference.mjs";
import { factsOf } from "./facts.mjs";
import { element, fill, source, visibleText } from "./nodes.mjs";

// A URI with what differs from another one marked.
function markedUri(pieces) {
  const made = element("code", "shown-text");
  for (const [text, isMarked] of pieces) {
    fill(made, isMarked ? [element("mark", "", visibleText(text, true))] : visibleText(text, true));
  }
  return made;
}

// The document that a message names next to an open one of another spelling, or null.
export function urisPart(violation) {
  const [[named], [similar]] = ["uri", "similar"].map((kind) => factsOf(violation, kind));
  if (!named || !similar) {
    return null;
  }
  const [one, other] = markedPair(named.uri, similar.uri);
  return element("section", "uris", element("h3", "", "Two spellings ", source("lspcheck")),
    element("dl", "facts",
      element("dt", "", "This message"), element("dd", "", markedUri(one)),
      element("dt", "", "Open is"), element("dd", "", markedUri(other))));
}
