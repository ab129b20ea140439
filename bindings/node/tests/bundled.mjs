/** What a program asks of the package in a browser. It is run by browser.mjs, as it stands and as a bundle. */
import * as jp from "jsonpath-jp";

const refused = () => {
  try {
    jp.check("$[?@.a = 1]");
  } catch (fault) {
    return [fault.kind, fault.suggestion, structuredClone(fault).cause.kind];
  }
  return null;
};

globalThis.given = {
  values: jp.values("$..price", '{"a":[{"price":8.950},{"price":1e2}]}'),
  whole: new jp.Document("[9007199254740993]", { numbers: "whole" }).findOne("$[?@>9007199254740992]").text,
  pointers: new jp.Document({ "a/b": [1] }).find("$..*").map((match) => match.pointer),
  refused: refused(),
};
