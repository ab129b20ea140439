/** Makes a picture of the page, with one of the selected values current: picture.mjs CHROMIUM FILE */
import { Browser } from "./browser.mjs";

const [, , chromium, file] = process.argv;
const browser = new Browser(chromium);
try {
  await browser.open(new URL("../jp.html", import.meta.url).href, { width: 1280, height: 800 });
  await browser.until('document.querySelector("#nodes").ariaBusy === "false"');
  await browser.value('document.querySelectorAll("#nodes .path")[1].click()');
  await browser.until('document.querySelector("#document .current") && document.querySelector("#part").textContent');
  await browser.picture(file);
} finally {
  await browser.close();
}
