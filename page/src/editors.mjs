/** The two editors of the page: CodeMirror, with what is common to both and what each has. */
import { byId } from "./elements.mjs";
import { defineQueryMode } from "./querymode.mjs";

const COMMON = {
  theme: "jp",
  inputStyle: "contenteditable",
  lineWrapping: true,
  matchBrackets: true,
  autoCloseBrackets: { pairs: "()[]{}\"\"", explode: "[]{}" },
  tabSize: 4,
  cursorBlinkRate: 0,
};
// Tab goes on to what is next on the page.
const KEYS_OF_ALL = { Tab: false, "Shift-Tab": false };

/**
 * Has an editor take what is put in without a key, as from a list of emoji, in place of what is selected. By itself it
 * compares the texts before and after, and keeps selected what both begin with.
 */
function takeTexts(editor, field) {
  field.addEventListener("beforeinput", (event) => {
    if (event.inputType === "insertText" && event.cancelable && event.data !== null && !editor.isReadOnly()) {
      event.preventDefault();
      editor.replaceSelection(event.data, "end", "+input");
    }
  });
}

/** An editor in the element of an id, with a name for screen readers and what describes it. */
function madeEditor(id, name, describedBy, keys, options) {
  const extraKeys = { ...KEYS_OF_ALL, ...keys };
  const editor = CodeMirror(byId(id), { ...COMMON, screenReaderLabel: name, extraKeys, ...options });
  const field = editor.getInputField();
  field.setAttribute("role", "textbox");
  field.setAttribute("aria-multiline", "true");
  field.setAttribute("aria-describedby", describedBy);
  takeTexts(editor, field);
  return editor;
}

/** Has the editor read what was typed last, which it does a little later else: a mark that is drawn before loses it. */
export function settle(editor) {
  const { input } = editor.display;
  if (input.readDOMTimeout && !input.composing) {
    clearTimeout(input.readDOMTimeout);
    input.readDOMTimeout = null;
    input.updateFromDOM();
  }
}

/** Says to screen readers, and by a color, whether what stands in an editor is refused. */
export function setRefused(editor, isRefused) {
  editor.getInputField().setAttribute("aria-invalid", String(isRefused));
  editor.getWrapperElement().classList.toggle("refused", isRefused);
}

export function queryEditor(run) {
  defineQueryMode();
  const keys = { Enter: run, "Shift-Enter": (editor) => editor.replaceSelection("\n") };
  return madeEditor("query", "Query", "query-outcome", keys, {
    mode: "jsonpath",
    placeholder: "for example $..price",
    viewportMargin: Infinity,
  });
}

export function documentEditor() {
  return madeEditor("document", "Document", "long document-outcome", { "Ctrl-.": "toggleFold" }, {
    mode: { name: "javascript", json: true },
    placeholder: "a JSON document: type it, paste it, or open a file",
    lineNumbers: true,
    gutters: ["CodeMirror-linenumbers", "CodeMirror-foldgutter"],
  });
}
