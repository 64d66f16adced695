// What is left if the script fails: the words of lspcheck, which are in the page itself.

export function sayFault(fault) {
  const said = document.getElementById("fault");
  said.textContent = "The rest of this page could not be shown: " +
    (typeof DecompressionStream === "undefined" ? "this browser is too old" : String(fault));
  said.hidden = false;
  document.getElementById("plain").hidden = false;
  document.documentElement.dataset.ready = "failed";
}
