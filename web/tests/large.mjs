// Large files: how long the page takes, how much of them it draws, and whether their last line is reached.

import { execFileSync } from "node:child_process";
import { statSync } from "node:fs";
import { root } from "./texts.mjs";

/** Large files: how long the page takes, by its own clock. */
export async function tryLarge(page, hold, work) {
  for (const [kind, size] of [["code", "64"], ["hunks", "2"]]) {
    const path = `${work}/large-${kind}`;
    execFileSync("python3", [`${root}bench/make.py`, kind, size, path]);
    await page.shows(() => page.browser.upload("#pick", [path]));
    const told = `return ["verdict", "time"].map((id) => document.getElementById(id).textContent)`;
    const [first, time] = await page.in(told);
    const rows = await page.in(`return document.querySelectorAll("[data-row], .line").length`);
    hold(`${kind}, rows that are rendered, fewer than 120`, true, rows < 120);
    console.log(`${page.browser.name}: ${first} ${time}`);
    const wanted = (Math.ceil(statSync(path).size / 16) * 16 - 16).toString(16).padStart(8, "0");
    const ways = {
      "the key End": `box.dispatchEvent(new KeyboardEvent("keydown", { key: "End" }))`,
      scrolling: "box.scrollTop = 1e9",
    };
    for (const [name, way] of Object.entries(ways)) {
      const last = await page.in(
        `const box = document.getElementById("file-hex");
         box.scrollTop = 0;
         await new Promise((done) => setTimeout(done, 100));
         ${way};
         await new Promise((done) => setTimeout(done, 100));
         return [...box.querySelectorAll(".at")].at(-1).textContent`,
      );
      hold(`${kind}, the last line by ${name}`, wanted, last);
    }
  }
}
