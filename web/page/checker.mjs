// The page on which logs are dropped.

// How many logs are judged at once, and how much of an output is shown.
const MOST_AT_ONCE = 4, MOST_SHOWN = 200_000;

const utf8 = new TextDecoder("utf-8", { ignoreBOM: true });

function element(name, className, ...parts) {
  const made = document.createElement(name);
  made.className = className;
  made.append(...parts.filter((it) => it !== null));
  return made;
}

function button(text, act) {
  const made = element("button", "", text);
  made.type = "button";
  made.addEventListener("click", act);
  return made;
}

/** A text as it is shown: with numbers for characters that are not printed. */
function visible(text) {
  return text.replace(/(?![ \n])[\p{C}\p{Z}]/gu, (it) =>
    `[U+${it.codePointAt(0).toString(16).toUpperCase().padStart(4, "0")}]`);
}

/** The bytes that base64 packs. */
async function unpacked(packed) {
  const bytes = Uint8Array.from(atob(packed), (it) => it.charCodeAt(0));
  const stream = new Blob([bytes]).stream().pipeThrough(new DecompressionStream("deflate"));
  return new Uint8Array(await new Response(stream).arrayBuffer());
}

// How a page of lspcheck-page begins, and the log in one with the checker.
const MARK = "<!doctype html><!-- lspcheck-page -->";
const LOG_IN_PAGE = /<script type="application\/octet-stream" id="log">([^<]*)<\/script>/;

/** The log that a file is, or that is in it. */
async function logIn(file) {
  if (await file.slice(0, MARK.length).text() !== MARK) {
    return file;
  }
  const found = LOG_IN_PAGE.exec(await file.text());
  if (!found) {
    throw new Error("this page has no log: lspcheck-page --with-checker puts it there");
  }
  const log = await unpacked(found[1]).catch(() => {
    throw new Error("the log in this page is damaged");
  });
  return new File([log], file.name.replace(/\.html$/, ".log"));
}

const policy = globalThis.trustedTypes?.createPolicy("lspcheck", { createScriptURL: (url) => url });

/** What runs the checker: a worker for each log and command. */
class Checker {
  constructor(module, script, parts) {
    Object.assign(this, { module, parts, waiting: [], running: 0 });
    this.url = URL.createObjectURL(new Blob([script], { type: "text/javascript" }));
  }

  /** Does something with a file, and calls `tell` with all messages. Returns what stops it. */
  start(given, tell) {
    const { module, parts } = this;
    const task = { given: { ...given, module, parts }, tell, worker: null };
    this.waiting.push(task);
    this.next();
    return () => this.end(task);
  }

  next() {
    while (this.running < MOST_AT_ONCE && this.waiting.length) {
      const task = this.waiting.shift();
      this.running += 1;
      task.worker = new Worker(policy ? policy.createScriptURL(this.url) : this.url);
      task.worker.onmessage = ({ data }) => {
        if (data.is !== "progress") {
          this.end(task);
        }
        task.tell(data);
      };
      task.worker.onerror = (event) => {
        event.preventDefault();
        this.end(task);
        task.tell({ is: "fault", text: `the checker stopped: ${event.message}` });
      };
      task.worker.postMessage(task.given);
    }
  }

  end(task) {
    this.waiting = this.waiting.filter((it) => it !== task);
    if (task.worker) {
      task.worker.terminate();
      task.worker = null;
      this.running -= 1;
    }
    this.next();
  }
}

/** A link that saves a blob under a name. */
function saving(text, blob, name) {
  const made = element("a", "", text);
  made.href = URL.createObjectURL(blob);
  made.download = name;
  return made;
}

const VERDICTS = { yes: "good", no: "bad", bad: "bad" };

/** A log that was dropped, and what came of it. */
class Card {
  constructor(checker, file) {
    Object.assign(this, { checker, file, stop() {} });
    this.said = element("div", "");
    this.node = element("section", "card log", element("h2", "", visible(file.name)), this.said);
    this.node.dataset.is = "running";
    this.begin();
  }

  async begin() {
    try {
      this.file = await logIn(this.file);
      this.judge();
    } catch (error) {
      this.showFault({ text: error.message });
      this.node.dataset.is = "fault";
    }
  }

  judge() {
    this.start({ file: this.file }, (told) => this.showPage(told));
  }

  start(given, show) {
    const bar = element("progress", ""), line = element("p", "quiet", "waiting ..");
    bar.max = 1;
    const stop = button("Stop", () => {
      this.stop();
      this.said.replaceChildren(element("p", "quiet", "stopped"), this.buttons());
      this.node.dataset.is = "stopped";
    });
    this.said.replaceChildren(bar, line, element("div", "buttons", stop));
    this.node.dataset.is = "running";
    this.stop = this.checker.start(given, (told) => {
      if (told.is === "progress") {
        bar.value = told.at / Math.max(told.size, 1);
        const mb = (count) => Math.floor(count / 1e6).toLocaleString("en");
        const how = `read ${mb(told.at)} of ${mb(told.size)} MB`;
        line.textContent = `lspcheck ${told.words.join(" ")}: ${how}`;
        return;
      }
      show(told);
      this.node.dataset.is = told.is;
    });
  }

  buttons(...more) {
    const again = button("Judge again", () => this.judge());
    const remove = button("Remove", () => {
      this.stop();
      this.node.remove();
    });
    return element("div", "buttons", ...more, again, remove);
  }

  showFault(told) {
    this.said.replaceChildren(element("p", "verdict-line bad", visible(told.text)), this.buttons());
  }

  showPage(told) {
    if (told.is === "fault") {
      this.showFault(told);
      return;
    }
    const [first, second] = told.report, kind = VERDICTS[first.split(" ")[0]];
    const line = first === "yes" ? first : `${first}: ${second}`;
    const place = element("div", ""), name = `${this.file.name.replace(/\.log$/, "")}.html`;
    const page = URL.createObjectURL(told.page);
    const show = button("Show the session", () => {
      const frame = element("iframe", "");
      frame.title = `the session of ${this.file.name}`;
      frame.src = page;
      place.replaceChildren(frame);
    });
    const tab = element("a", "", "in a tab of its own");
    tab.href = page;
    tab.target = "_blank";
    tab.rel = "noopener";
    this.said.replaceChildren(element("p", `verdict-line ${kind}`, visible(line)),
      this.buttons(show, tab, saving("save the page", told.page, name)),
      element("details", "", element("summary", "", "what lspcheck explain says"),
        element("pre", "", visible(told.report.join("\n")))), place);
  }

  async showOutput(words, told) {
    if (told.is === "fault") {
      this.showFault(told);
      return;
    }
    const [out, err] = [told.out.slice(0, MOST_SHOWN), told.err.slice(0, MOST_SHOWN)];
    const decoded = async (it) => utf8.decode(await it.arrayBuffer());
    const [text, errors] = await Promise.all([out, err].map(decoded));
    const rest = told.out.size > MOST_SHOWN ? element("p", "quiet",
      `${told.out.size.toLocaleString("en")} bytes, of which the first are shown`) : null;
    this.said.replaceChildren(...[
      element("p", "quiet", `lspcheck ${words.join(" ")}: status ${told.status}`),
      element("pre", "out", visible(text)), rest, element("pre", "err", visible(errors)),
      this.buttons(saving("save the output", told.out, `${this.file.name}.txt`)),
    ].filter(Boolean));
  }

  run(words) {
    this.stop();
    this.start({ file: this.file, words }, (told) => this.showOutput(words, told));
  }
}

/** The words of a command line: parted by spaces, or in quotes. */
function wordsOf(line) {
  return [...line.matchAll(/"([^"]*)"|'([^']*)'|(\S+)/g)].map((it) => it[1] ?? it[2] ?? it[3]);
}

class Page {
  constructor(checker) {
    Object.assign(this, { checker, cards: [], command: document.getElementById("command") });
    this.files = document.getElementById("files");
    this.drop = document.getElementById("drop");
    this.files.disabled = false;
    this.files.addEventListener("change", () => {
      this.add(this.files.files);
      this.files.value = "";
    });
    addEventListener("dragover", (event) => this.over(event, true));
    addEventListener("dragleave", (event) => this.over(event, false));
    addEventListener("drop", (event) => {
      this.over(event, false);
      this.add(event.dataTransfer.files);
    });
    this.command.addEventListener("submit", (event) => {
      event.preventDefault();
      const words = wordsOf(document.getElementById("words").value);
      this.cards.filter((it) => it.node.isConnected).forEach((it) => it.run(words));
    });
  }

  over(event, isOver) {
    event.preventDefault();
    this.drop.classList.toggle("is-over", isOver);
  }

  add(files) {
    for (const file of files) {
      const card = new Card(this.checker, file);
      this.cards.push(card);
      document.getElementById("logs").append(card.node);
    }
    this.command.hidden = this.cards.length === 0;
  }
}

async function start() {
  const [module, worker, parts] = await Promise.all(["module", "worker", "parts"].map((id) =>
    unpacked(document.getElementById(id).textContent)));
  const compiled = await WebAssembly.compile(module);
  new Page(new Checker(compiled, worker, JSON.parse(utf8.decode(parts))));
}

start().then(() => {
  document.documentElement.dataset.ready = "yes";
}, (error) => {
  const said = document.getElementById("fault");
  said.textContent = "This browser cannot run the checker, which needs WebAssembly with 64-bit " +
    "memories, as Chrome and Edge have from version 133 on and Firefox from 134 on " +
    `(${error.message}).`;
  said.hidden = false;
  document.documentElement.dataset.ready = "failed";
});
