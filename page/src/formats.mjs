/** The nodes as a text to be copied or saved. */

const NEEDS_QUOTES = /[",\r\n]|^$/;

/** What is written of a node: its line's number where documents have a line each, its path and its value. */
function partsOf({ line, path, value }, form) {
  return {
    ...(line === undefined ? {} : { line }),
    ...(form === "values" ? {} : { path }),
    ...(form === "paths" ? {} : { value }),
  };
}

function asJson({ line, path, value }, form) {
  if (line === undefined && form !== "both") {
    return form === "paths" ? JSON.stringify(path) : value;
  }
  const members = partsOf({ line, path: JSON.stringify(path), value }, form);
  return `{${Object.entries(members).map(([name, text]) => `"${name}":${text}`).join(",")}}`;
}

/** A value as a field has it: a text as it is, without JSON's quotes and escapes, and any other as JSON. */
function plain(value) {
  return value.startsWith('"') ? JSON.parse(value) : value;
}

/** A field of CSV (RFC 4180). An empty one has quotes, since some readers pass over a line without anything. */
function field(text) {
  return NEEDS_QUOTES.test(text) ? `"${text.replaceAll('"', '""')}"` : String(text);
}

function asCsv({ line, path, value }, form) {
  const fields = partsOf({ line, path, value: plain(value) }, form);
  return Object.values(fields).map(field).join(",");
}

const FORMATS = {
  json: {
    type: "application/json",
    before: "[",
    between: ",\n",
    after: "]\n",
    node: asJson,
  },
  lines: {
    type: "text/plain",
    before: "",
    between: "\n",
    after: "\n",
    node: (node, form) => Object.values(partsOf(node, form)).join("\t"),
  },
  csv: {
    type: "text/csv",
    before: "",
    between: "\r\n",
    after: "\r\n",
    node: asCsv,
  },
};

/** The nodes, whose numbers come in the order that is wanted, in a format. Parts of a text make it without copies. */
export function written(answer, numbers, format, form) {
  const { type, before, between, after, node } = FORMATS[format];
  const parts = [];
  const heads = format === "csv" ? [Object.keys(partsOf(answer.node(0), form)).join(",")] : [];
  const texts = [...heads];
  for (const number of numbers) {
    texts.push(node(answer.node(number), form));
    if (texts.length === 10_000) {
      parts.push(texts.join(between), between);
      texts.length = 0;
    }
  }
  if (texts.length === 0) {
    parts.pop();
  }
  return new Blob([before, ...parts, texts.join(between), after], { type });
}
