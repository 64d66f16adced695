// What one pastes into an issue about a log, as lsptools/page/in_markdown.py makes it, in its
// words.

import { tableOf, textBefore } from "./columns.mjs";
import { difference } from "./hunks.mjs";
import { counted, cut, shortName, visible } from "./wording.mjs";

const MOST_OF_MESSAGE = 600, MOST_OF_SUSPECT = 200;
const MOST_OF_DIFFERENCE = 24, MOST_SUSPECTS = 5, MOST_NOTES = 20, MOST_LINES = 60;
const LONGEST_LINE = 1000;

// A sentence in which nothing means anything in Markdown, and the words in it that a forge takes
// for a link all the same.
const HARMLESS = /^(?:[A-Za-z0-9 ,;()'’+-]|[.:?](?= |$))+$/;
const LINKED = /\b(?:[0-9a-f]{7,}|(?!UTF-)[A-Z]+-[0-9]+)\b/;

function longestRun(text) {
  return Math.max(0, ...(text.match(/`+/g) ?? []).map((it) => it.length));
}

/** A text of one line as code. */
function code(text) {
  const fence = "`".repeat(longestRun(text) + 1);
  return fence === "`" ? `\`${text}\`` : `${fence} ${text} ${fence}`;
}

/** Lines as a block of code. */
function block(kind, lines) {
  const fence = "`".repeat(Math.max(2, ...lines.map(longestRun)) + 1);
  return [fence + kind, ...lines, fence];
}

function inert(text) {
  const shown = visible(text);
  return HARMLESS.test(shown) && !LINKED.test(shown) ? shown : code(shown);
}

/** A line that lspcheck wrote. */
function shownLine(line) {
  return cut(visible(line), LONGEST_LINE);
}

/** A word for a shell like bash: as it is, in quotes, or with escapes for what can't be seen. */
function shellWord(text) {
  if (visible(text) === text) {
    return /^[\w@%+=:,./-]+$/.test(text) ? text : `'${text.replaceAll("'", "'\"'\"'")}'`;
  }
  const escaped = (it) => [...new TextEncoder().encode(it)]
    .map((byte) => `\\x${byte.toString(16).padStart(2, "0")}`).join("");
  const characters = [...text].map((it) => (/[A-Za-z0-9 ,._+=@%/:-]/.test(it) ? it : escaped(it)));
  return `$'${characters.join("")}'`;
}

/** The Markdown of a log, from what its page knows. */
class Markdown {
  constructor(parts, index, linesOf, kept, before) {
    Object.assign(this, { words: parts.words, index, linesOf, kept, before });
    this.said = index.said;
    [this.verdict] = this.said;
  }

  say(key, values = {}) {
    return this.words[key].replace(/\{(\w+)\}/g, (_, name) => values[name]);
  }

  title() {
    const so = this.said.find((it) => it.is === "so")?.sentence;
    const text = inert(so ?? this.say(this.verdict.is, this.verdict));
    return [text.startsWith("`") ? text : `**${text}**`];
  }

  place() {
    const { verdict, index: { events } } = this;
    if (verdict.is === "yes") {
      return [];
    }
    if (verdict.is === "bad log") {
      return [this.say("at record", verdict)];
    }
    if (verdict.event > events) {
      return [this.say("at the end", { ...verdict, whose: this.say(`${verdict.who} at the end`) })];
    }
    return [this.say("at event", { ...verdict, whose: this.say(verdict.who), events })];
  }

  who() {
    const { agreed, client, server, name, events } = this.index;
    return [this.say("who", {
      editor: code(shortName(client) ?? this.say("an editor")),
      server: code(shortName(server) ?? this.say("a server")),
      agreed: this.say(agreed ? "agreed" : "no handshake", this.index),
      log: code(visible(name)),
      events: counted(events, "event"),
    })];
  }

  shown(content, most) {
    return cut(visible(new TextDecoder("utf-8", { ignoreBOM: true })
      .decode(content.subarray(0, 4 * most)).replace(/[ \t\r\n]+$/, "")), most);
  }

  message() {
    const content = this.kept.get(this.verdict.event);
    return content?.length ? [this.say("message"), "",
      ...block("json", [this.shown(content, MOST_OF_MESSAGE)])] : [];
  }

  difference() {
    const { texts } = this.index;
    if (!texts) {
      return [];
    }
    const [lines, isWhole] = difference(texts.messages, texts.editor, MOST_OF_DIFFERENCE);
    return [this.say("difference"), "", ...block("diff", lines),
      ...(isWhole ? [] : ["", this.say("more of the difference")])];
  }

  columns() {
    const change = this.said.find((it) => it.is === "change");
    if (this.before === null || !change || change.whole) {
      return [];
    }
    const content = this.kept.get(this.verdict.event), { encoding } = this.index;
    const message = content ? JSON.parse(new TextDecoder().decode(content)) : null;
    const text = textBefore(this.before, message, change.which, encoding);
    const fits = this.said.find((it) => it.is === "fits")?.names ?? [];
    const table = text === null ? null : tableOf(text, change, encoding, fits);
    return table ? [this.say("columns", { line: table[0] }), "", ...block("", table[1])] : [];
  }

  /** The end of a message from its changes on. */
  changesIn(content) {
    const text = Array.from(content, (it) => String.fromCharCode(it)).join("");
    const start = Math.max(text.indexOf('"contentChanges"'), 0);
    return (start ? "…" : "") + this.shown(content.subarray(start), MOST_OF_SUSPECT);
  }

  suspects() {
    const found = this.said.filter((it) => it.is === "suspect"), lines = [];
    for (const it of found.slice(0, MOST_SUSPECTS)) {
      lines.push(...this.linesOf([it]));
      const content = this.kept.get(it.event);
      if (content?.length) {
        lines.push(`  ${this.changesIn(content)}`);
      }
    }
    const count = this.said.find((it) => it.is === "suspects")?.count ?? 0;
    const rest = count - MOST_SUSPECTS;
    if (found.length && rest > 0) {
      lines.push(this.say("more lines", { more: counted(rest, "more message") }));
    }
    return lines.length ? [this.say("suspects"), "", ...block("", lines)] : [];
  }

  explanation() {
    const objects = this.said.filter((it) => it.is !== "note" && it.is !== "notes");
    const lines = this.linesOf(objects).map(shownLine), rest = lines.length - MOST_LINES;
    return [this.say("explanation"), "", ...block("", lines.slice(0, MOST_LINES)),
      ...(rest > 0 ? ["", this.say("more lines", { more: counted(rest, "more line") })] : [])];
  }

  notes() {
    const { notes } = this.index, rest = notes.length - MOST_NOTES;
    const lines = this.linesOf(notes.slice(0, MOST_NOTES)).map((it) => `- ${code(shownLine(it))}`);
    const more = rest > 0 ?
      [`- ${this.say("more lines", { more: counted(rest, "more note") })}`] : [];
    return lines.length ? [this.say("notes"), "", ...lines, ...more] : [];
  }

  end() {
    const { name, version } = this.index, log = shellWord(name.replace(/^-/, "./-"));
    return [`${this.say("command", { command: code(`lspcheck explain ${log}`) })} ` +
      this.say("written by", { version: code(visible(version)) })];
  }

  text() {
    const parts = [this.title(), this.place(), this.who(), this.message(), this.difference(),
      this.columns(), this.suspects(), this.explanation(), this.notes(), this.end()];
    return `${parts.filter((it) => it.length).map((it) => it.join("\n")).join("\n\n")}\n`;
  }
}

export function markdownOf(...given) {
  return new Markdown(...given).text();
}
