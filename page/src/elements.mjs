/** Elements of the page. */

export const byId = (id) => document.getElementById(id);

/** An element with its class, if any, and what stands in it. */
export function made(name, className, ...parts) {
  const element = document.createElement(name);
  if (className) {
    element.className = className;
  }
  element.append(...parts);
  return element;
}

/** A button that does something when it is pressed. */
export function madeButton(className, text, press) {
  const button = made("button", className, text);
  button.type = "button";
  button.addEventListener("click", press);
  return button;
}

/** A number with commas between its thousands. */
export function spelled(number) {
  return number.toLocaleString("en");
}

/** A number of things, in words. */
export function counted(number, one, many) {
  return `${spelled(number)} ${number === 1 ? one : many}`;
}

/** What is called once the page was left alone for so many milliseconds. */
export function calmed(call, milliseconds) {
  let timer;
  return () => {
    clearTimeout(timer);
    timer = setTimeout(call, milliseconds);
  };
}
