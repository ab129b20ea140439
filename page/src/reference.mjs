/** What the page teaches: the syntax, the functions and the keys. */

/** Each with what it inserts, and what that selects. What a user would change of it is selected then. */
export const SYNTAX = [
  ["$", "the whole document, where each query begins"],
  [".name", "the member of that name", "name"],
  ["['any name']", "the member of any name", "any name"],
  [".*", "all children"],
  ["[0]", "the first item; [-1] is the last", "0"],
  ["[1:3]", "a slice: items 1 and 2; [::2] is each second", "1:3"],
  ["['a', 0]", "several selectors, one after another", "'a', 0"],
  ["..name", "the members of that name, at any depth", "name"],
  ["..*", "all that is inside, at any depth"],
  ["[?@.name]", "the children that have such a member", "@.name"],
  ["[?@.name == 'x']", "those where it is equal; also != < <= > >=", "@.name == 'x'"],
  ["[?@.a && !@.b]", "and, not; || is or, and ( ) group", "@.a && !@.b"],
];

/**
 * Each function with what is changed of it, what makes a test of it, what it answers, and a query over the document of
 * the examples of section 2.4.
 */
export const FUNCTIONS = [
  ["length(@.name)", "@.name", " > 1", "how many characters, items or members there are", "$[?length(@.authors) == 2]"],
  ["count(@.*)", "@.*", " > 1", "how many nodes a query selects", "$[?count(@.*) == 3].name"],
  ["match(@.name, 'A.*')", "'A.*'", "", "whether a whole text fits a pattern", '$[?match(@.born, "18.*")].name'],
  ["search(@.name, 'a')", "'a'", "", "whether some part of a text fits", '$[?search(@.born, "-12-")].name'],
  ["value(@..name)", "@..name", " == 'x'", "the value, if a query selects one alone", '$[?value(@..color) == "red"]'],
];

export const EXTENDED_FUNCTION = [
  "distinct(@.*)",
  "@.*",
  "",
  "nodes without repeats; the profile Extended adds this one, and changes nothing else",
  "$[?count(distinct(@[0,0,1]))==2]",
];

export const KEYS = [
  ["Tab, Shift+Tab", "go on and back, also out of the query and the document"],
  ["Enter", "in the query: ask it, without the blanks at its ends"],
  ["Shift+Enter", "in the query: a new line"],
  ["Alt+↓, Alt+↑", "the next and the previous selected value, from anywhere"],
  ["↓, ↑, Home, End", "in the list of nodes, in this reference, and below the query: from one to another"],
  ["Enter", "on a node: its value in the document"],
  ["Ctrl+.", "in the document: fold or unfold at the cursor"],
  ["Ctrl+Z", "in the query or the document: undo (on a Mac Cmd+Z)"],
  ["Esc", "stop what is at work"],
];
