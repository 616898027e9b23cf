// Opens the page in a browser, and takes a picture of it:  node tools/playground/look.mjs PICTURE.png [HASH
// [EXPRESSION [WIDTH HEIGHT [BROWSER]]]]
import {writeFileSync} from "node:fs";

import {BROWSERS, sleep} from "./browsers.mjs";

const PAGE = new URL("../../playground.html", import.meta.url);
const [picture, hash = "", expression = "", width = "1280", height = "720", name = "Chromium"] =
    process.argv.slice(2);
const browser = new (BROWSERS.find(it => it.name === name))();
await browser.begin({width: Number(width), height: Number(height)});
await browser.open(`${PAGE}${hash}`);
const isDone = () => browser.value("document.documentElement.dataset.done ?? ''");
for (let tries = 0; tries < 200 && !(await isDone()); tries++) await sleep(50);
if (expression) console.log(await browser.value(expression));
await sleep(300);
writeFileSync(picture, await browser.picture());
for (const error of browser.errors) console.error(`error: ${error}`);
await browser.end();
