// The page of the examples in a browser: node page.mjs BROWSER PROJECT FILE WORK. PROJECT is a folder in which the package is
// installed, beside index.html; it is served, FILE is picked, and what the page then shows is printed. WORK is for the browser.
import { readFileSync } from "node:fs";
import { createServer } from "node:http";
import { Chromium, Firefox } from "../../web/tests/browser.mjs";

const [name, project, file, work] = process.argv.slice(2);
const TYPES = { html: "text/html", js: "text/javascript", wasm: "application/wasm" };

/** Of a path that is not there the answer is 404, as for an icon. */
const server = createServer((request, answer) => {
  try {
    const bytes = readFileSync(project + request.url);
    answer.setHeader("content-type", TYPES[request.url.split(".").at(-1)]).end(bytes);
  } catch {
    answer.writeHead(404).end();
  }
});
await new Promise((done) => server.listen(0, "127.0.0.1", done));
const browser = await (name === "chromium" ? Chromium : Firefox).open(work);
try {
  await browser.go(`http://127.0.0.1:${server.address().port}/index.html`);
  // The page listens once its module is open.
  const shown = `const shown = () => document.getElementById("blocks")?.textContent;
    for (let i = 0; !shown() && i < 100; i++) {
      document.getElementById("pick")?.dispatchEvent(new Event("change"));
      await new Promise((done) => setTimeout(done, 50));
    }
    return shown() ?? "nothing";`;
  const isThere = `document.readyState === "complete" && document.getElementById("pick")`;
  await browser.runIn(`while (!(${isThere})) await new Promise((done) => setTimeout(done, 50));`);
  await browser.upload("#pick", [file]);
  console.log(await browser.runIn(shown));
} finally {
  await browser.close();
  server.closeAllConnections();
  server.close();
}
