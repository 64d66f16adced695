// The lines of a report from its objects, as lsptools/base/report_lines.py makes them, by the forms
// of docs/report.schema.json.

// What a line has for null: in most lines a dash.
const NULLS = { codes: "end" };

/** JSON text, in which a BigInt is a number. */
export function jsonOf(value) {
  return typeof value === "bigint" ? String(value) : JSON.stringify(value, (_, it) =>
    typeof it === "bigint" ? JSON.rawJSON?.(String(it)) ?? Number(it) : it);
}

function hasForm(it, { properties, required }) {
  const keys = Object.keys(it).filter((key) => key in properties);
  return keys.join() === required.join() && keys.every((key) =>
    !("const" in properties[key]) || properties[key].const === it[key]);
}

function wordsOf(it, key, isQuoted) {
  const values = Array.isArray(it[key]) ? it[key] : [it[key]];
  if (isQuoted || key === "id") {
    return values.map(jsonOf).join(" ");
  }
  return values.map((value) => (value === null ? NULLS[it.is] ?? "-" : String(value))).join(" ");
}

/** The line that an object stands for, and its text if it has one. */
function linesOf(forms, it) {
  const found = forms.filter((form) => form.properties.is.const === it.is && hasForm(it, form));
  if (found.length === 0) {
    return [jsonOf(it)];
  }
  const { title } = found.reduce((best, one) =>
    (one.required.length > best.required.length ? one : best));
  const line = title.replace(/ \[(\w+)\]/g, (_, key) => (it[key] ? ` ${key}` : ""));
  return line.replace(/(^|[ \n])("?)<(\w+)>\2(?: \.\.)?/g, (_, space, quote, key) => {
    const words = wordsOf(it, key, quote !== "");
    return words ? space + words : "";
  }).split("\n");
}

export function linesOfReport(forms, objects) {
  return objects.flatMap((it) => linesOf(forms, it));
}
