// The smallest log that shows the violation, which can be saved.

import { loaded, session } from "./data.mjs";
import { sayFault } from "./fault.mjs";
import { button, count, element } from "./nodes.mjs";

async function save(name) {
  const url = URL.createObjectURL(new Blob([await loaded("case")]));
  const link = element("a", "");
  link.href = url;
  link.download = name;
  link.click();
  setTimeout(() => URL.revokeObjectURL(url), 60000);
}

export function casePart() {
  const found = session.case;
  if (!found) {
    return null;
  }
  const name = `${(session.name ?? "session").replace(/\.log$/, "")}-small.log`;
  return element("section", "card smallest-log",
    element("h2", "", "The smallest log that shows this"),
    element("p", "", `${count(found.events, "event")}, ${count(found.bytes, "byte")}: `,
      "what the verdict does not need was left out. ",
      button("plain", "save it", () => save(name).catch(sayFault))));
}
