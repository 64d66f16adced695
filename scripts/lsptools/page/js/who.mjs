// Who took part in the session, and on what they agreed.

import { session } from "./data.mjs";
import { element, titled } from "./nodes.mjs";
import { agreement } from "./verdict.mjs";
import { namedText } from "./visible.mjs";

const VERSION_NUMBER = /\d+(?:\.\d+)+/;

// A name with the number in its version, which may be a sentence.
function shortName({ name, version }) {
  if (!name) {
    return null;
  }
  const number = VERSION_NUMBER.exec(version ?? "")?.[0] ?? version;
  return namedText(number ? `${name} ${number}` : name);
}

function longName({ name, version }) {
  return namedText([name, version].filter(Boolean).join(" "));
}

const editorName = shortName(session.client), serverName = shortName(session.server);

export function whoLine() {
  const names = `${editorName ?? "an editor without a name"} to ` +
    `${serverName ?? "a server without a name"}`;
  const agreed = agreement();
  return titled(element("p", "who", element("strong", "", names), agreed ?
    ` · columns in ${agreed.encoding} · synchronisation: ${agreed.sync}` : " · no handshake"),
  [session.client, session.server].map(longName).filter(Boolean).join("; "));
}

export function laneHeads() {
  const head = (label, name) => element("div", "", name ? `${label}: ${name}` : label);
  return [head("Editor", editorName), element("div", "", "event"), head("Server", serverName)];
}
