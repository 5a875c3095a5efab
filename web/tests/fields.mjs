// The fields of the page, for an address and for filters, and the link of what is shown.

import { LOAD, TEXT, VERDICT, type } from "./many.mjs";

async function tryBase(page, hold) {
  const field = `const field = document.getElementById("base");
    const note = document.getElementById(field.getAttribute("aria-describedby"));
    return [field.getAttribute("aria-invalid"), note.textContent,
      document.querySelector("#memory-hex .at").textContent,
      document.querySelector("#list-panel [data-row]").children[3].textContent].join()`;
  const wrong = "true,No address of up to 8 hexadecimal digits.";
  await page.drop([["load", LOAD]]);
  await type(page, "#base", "00022000", "change");
  hold("another address", ",,00022000,00022000", await page.in(field));
  for (const text of ["zz", "", "123456789", "-1", "0x"]) {
    await type(page, "#base", text, "change");
    hold(`the address "${text}"`, `${wrong},00022000,00022000`, await page.in(field));
  }
  await type(page, "#base", "2300", "input");
  hold("an address that is typed after it", ",,00022000,00022000", await page.in(field));
  for (const text of ["$23000", "0x23000", " 23000 "]) {
    await type(page, "#base", text, "change");
    hold(`the address "${text}"`, ",,00023000,00023000", await page.in(field));
  }
  await page.open(`#hex=${LOAD}&base=none`);
  hold("a link with no address", `${wrong},00021000,00021000`, await page.in(field));
}

const BOTH = "00000004,0000000c";
/** What is typed above a list, and what is left of it: the column that tells the rows apart, the last of symbols. */
const FOUND = {
  symbols: [
    -1,
    { "": "main,add_one.,Tabl", ADD: "add_one.", 8: "add_one.", "0x21014": "Tabl", $4: "Tabl", 21000: "main", z: "" },
  ],
  relocations: [2, { "": BOTH, c: "0000000c", "0x4": "00000004", "2100c": "0000000c", RELOC32: BOTH, 8: "" }],
};

async function tryFilters(page, hold) {
  await page.drop([["load", LOAD]]);
  const left = `return [...document.querySelectorAll("#list-panel [data-row]")]
    .map((it) => [...it.children].at(values[0]).textContent).join()`;
  for (const [list, [column, wanted]] of Object.entries(FOUND)) {
    await page.in(`document.getElementById("tab-${list}").click()`);
    for (const [text, names] of Object.entries(wanted)) {
      await type(page, "#list-panel input", text);
      hold(`${list} with "${text}"`, names, await page.in(left, column));
    }
  }
  await page.in(`document.getElementById("tab-symbols").click()`);
  await type(page, "#list-panel input", "tab");
  await type(page, "#base", "30000", "change");
  hold("the filter, from another address", "Tabl", await page.in(left, -1));
  await page.in(`document.querySelector("#list-panel [data-row]").click()`);
  const at = `return document.querySelector("#file-hex .picked").closest(".line").querySelector(".at").textContent`;
  hold("the place of a symbol that is found", "00000090", await page.in(at));
}

/** Has the browser copy into a text, or refuse to, and presses the button. */
const COPY = `
  let copied = "nothing";
  const writeText = async (text) => {
    if (values[0]) throw new DOMException("", "NotAllowedError");
    copied = text;
  };
  Object.defineProperty(navigator, "clipboard", { value: { writeText }, configurable: true });
  document.getElementById("copy-link").click();
  await new Promise((done) => setTimeout(done, 50));
  const field = document.getElementById("link");
  return [copied, document.getElementById("copied").textContent, field.checkVisibility() ? field.value : ""];`;

async function tryLink(page, hold) {
  const here = await page.in("return location.href.replace(/#.*/, '')");
  await page.open("#example=two-hunks&base=00021000");
  await type(page, "#base", "30000", "change");
  hold("an address with another base", "#example=two-hunks&base=00030000", await page.in("return location.hash"));
  const copied = `${here}#example=two-hunks&base=00030000,Copied.,`;
  hold("the link of an example", copied, (await page.in(COPY, false)).join());
  await page.drop([["load", LOAD]]);
  hold("the address of a file", here, await page.in("return location.href"));
  const link = `${here}#hex=${LOAD}&base=00030000`;
  hold("its link", `${link},Copied. The file itself is in the link.,`, (await page.in(COPY, false)).join());
  await page.drop([["load", LOAD]]);
  const told = await page.in(`return document.getElementById("copied").textContent`);
  hold("what is said of it, of the next file", "", told);
  const refused = await page.in(COPY, true);
  const inField = `nothing,This browser lets nothing be copied. The link is here:,${link}`;
  hold("a link that can't be copied", inField, refused.join());
  await page.drop([["text", TEXT], ["load", LOAD]]);
  hold("the address of many files", here, await page.in("return location.href"));
  await page.drop([["large", LOAD + "00".repeat(4097 - LOAD.length / 2)]]);
  const tooLarge = "nothing,A link takes a file of 4,096 bytes at most.,";
  hold("the link of 4,097 bytes", tooLarge, (await page.in(COPY, false)).join());
  await page.open(link.slice(here.length));
  hold("a link that is opened", "A load file: 2 hunks, 24 bytes in memory.", await page.in(VERDICT));
  hold("its address", link, await page.in("return location.href"));
}

export async function compareFields(page, hold) {
  await page.open();
  await tryBase(page, hold);
  await tryFilters(page, hold);
  await tryLink(page, hold);
}
