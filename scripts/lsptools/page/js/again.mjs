// In a page that has the checker and its log: whether lspcheck says the same here.

import "./main.mjs";
import { allBlocks, loaded, session } from "./data.mjs";
import { element, visibleText } from "./nodes.mjs";

const AGAIN = {
  same: ["good", "Judged again here: the same.", ""],
  different: ["bad", "Judged again here: NOT the same: ", ". Do not rely on this page."],
  fault: ["bad", "It could not be judged again here: ", "."],
};

function sayAgain(node, { is, text }) {
  const [kind, before, after] = AGAIN[is];
  node.replaceChildren(before, ...visibleText(text ?? ""), after);
  node.classList.add(kind);
  document.documentElement.dataset.again = is;
}

async function judgeAgain(node) {
  const [module, log, script] = await Promise.all(["module", "log", "worker"].map(loaded));
  const blocks = await allBlocks();
  const policy = globalThis.trustedTypes?.createPolicy("lspcheck",
    { createScriptURL: (url) => url });
  const url = URL.createObjectURL(new Blob([script], { type: "text/javascript" }));
  const worker = new Worker(policy ? policy.createScriptURL(url) : url);
  worker.onmessage = ({ data }) => sayAgain(node, data);
  worker.onerror = (event) => sayAgain(node, { is: "fault", text: event.message });
  worker.postMessage({ module, log, page: { ...session, blocks } });
}

if (document.getElementById("module")) {
  const node = element("p", "where again", "Judging it again here ..");
  document.querySelector(".verdict h1").after(node);
  judgeAgain(node).catch((error) => sayAgain(node, { is: "fault", text: String(error) }));
}
