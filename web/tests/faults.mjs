// Errors of pages are seen in both browsers: one that nothing catches, a promise that nothing awaits, and what the
// console is told.

const WRONG = `console.error("told");
  setTimeout(() => { throw new Error("thrown"); });
  Promise.reject(new Error("rejected"));
  console.log("no error");
  await new Promise((done) => setTimeout(done, 300));`;

export async function compareFaults(page, hold) {
  hold("errors before", "", (await page.browser.faults()).join());
  await page.in(WRONG);
  const bare = (it) => it.replace(/^Uncaught (\(in promise\) )?/, "").replace("Error: ", "");
  const found = (await page.browser.faults()).map(bare);
  hold("errors that are seen", "rejected,thrown,told", found.sort().join());
}
