/**
 * What the page says of a number that is refused: where numbers are whole, by which switch it is read, or what to write
 * in its place.
 */
import { made, madeButton } from "./elements.mjs";

// In characters: of a longer number its start is shown, and as no whole one.
const LONGEST_SHOWN = 40;
const [LEAST_WHOLE, MOST_WHOLE] = [-(2n ** 63n), 2n ** 64n - 1n];
// In digits, and of the power of ten behind them: what a decimal holds.
const MOST_DIGITS = 38;
const MOST_POWER = 1_000_000;
const NOT_WHOLE = ["HasFraction", "NegativeZero", "OutOfRange", "BeyondFloat"];
const BEYOND = "BeyondDecimal";

/** The sign of a number of JSON, its digits from the first to the last that is not 0, and their power of ten. */
function partsOf(number) {
  const [, sign, ahead, fraction = "", exponent = "0"] = number.match(/^(-?)(\d+)(?:\.(\d+))?(?:[eE]([+-]?\d+))?$/);
  const digits = (ahead + fraction).replace(/0+$/, "");
  const power = Number(exponent) + ahead.length - digits.length;
  return { sign, digits: digits.replace(/^0+/, ""), power };
}

/** The digits of the whole number that a number of JSON equals, as "100" for 1e2, or null where it equals none here. */
function wholeDigits(number) {
  const { sign, digits, power } = partsOf(number);
  if (digits === "") {
    return "0";
  }
  if (power < 0 || digits.length + power > LONGEST_SHOWN) {
    return null;
  }
  const whole = BigInt(sign + digits + "0".repeat(power));
  return whole < LEAST_WHOLE || whole > MOST_WHOLE ? null : String(whole);
}

/** Whether a number of JSON is a decimal here. */
function isDecimal(number) {
  const { digits, power } = partsOf(number);
  return digits === "" || (digits.length <= MOST_DIGITS && Math.abs(power) <= MOST_POWER);
}

/** The switch by which numbers are not only whole ones, to be pressed where it is named. */
export function decimalsSwitch(takeDecimals) {
  return madeButton("link", "Decimals", takeDecimals);
}

/** What to do about a number that is refused for a reason, in a sentence; nothing for other reasons. */
export function numberWords({ reason, number }, takeDecimals) {
  const isWholeWanted = NOT_WHOLE.includes(reason);
  if (!isWholeWanted && reason !== BEYOND) {
    return [];
  }
  const isShort = number.length <= LONGEST_SHOWN;
  const shown = isShort ? number : `${number.slice(0, LONGEST_SHOWN)}…`;
  const whole = isWholeWanted && isShort ? wholeDigits(number) : null;
  const [code, other] = [shown, whole ?? `"${shown}"`].map((it) => made("code", "", it));
  const write = [code, whole === null ? " as the text " : " as ", other, "."];
  if (!isWholeWanted) {
    return [made("p", "warned", "Write ", ...write)];
  }
  const choice = isDecimal(number) ? ["choose ", decimalsSwitch(takeDecimals), ", or "] : [];
  return [made("p", "warned", "Numbers are whole here: ", ...choice, "write ", ...write)];
}
