// Going to an address, and finding bytes and texts, in both views.

import { SUM } from "./texts.mjs";

/** Says something to the field of a view, presses Enter, and tells the bytes that are picked then. */
const FIND = `
  const field = document.getElementById("find-" + values[0]);
  field.value = values[1];
  field.dispatchEvent(new KeyboardEvent("keydown", { key: "Enter", bubbles: true }));
  const found = [...document.querySelectorAll("#" + values[0] + "-hex .picked")].map((it) => {
    const line = it.closest(".line");
    return (parseInt(line.querySelector(".at").textContent, 16) + [...line.children].indexOf(it) - 1).toString(16);
  });
  return document.getElementById("copied-" + values[0]).textContent || found[0] + "-" + found.at(-1)`;

/** In the file 4e75 stands at 40 and 4e71 at 42, and END at 74 and 80; in the memory the code begins at 21000, and in
 * the file at 24. */
const FINDS = {
  memory: {
    21008: "21008-2100b", $21030: "21030-21033", "4e 71": "2101e-2101f", '"Nu"': "2101c-2101d", "4e75": "2101c-2101d",
  },
  file: { "0x1c": "1c-1f", "4e 71": "42-43", '"NuNq"': "40-43", "4e 75": "40-41", "ff ff ff": "It is not there." },
};

export async function compareFinding(page, hold) {
  await page.hex(SUM);
  for (const [view, finds] of Object.entries(FINDS)) {
    await page.in(
      `const box = document.getElementById(values[0] + "-hex");
       box.dispatchEvent(new KeyboardEvent("keydown", { key: "Home", bubbles: true }))`,
      view,
    );
    for (const [said, wanted] of Object.entries(finds)) {
      hold(`${said} in the ${view}`, wanted, await page.in(FIND, view, said));
    }
  }
  hold("the next END", "74-77", await page.in(FIND, "file", "00 00 03 f2"));
  hold("the one behind it", "80-83", await page.in(FIND, "file", "00 00 03 f2"));
}
