// How far apart colours are in the drawn page, as WCAG 2 counts it.

/** `contrast(element)` of an element, and what it is made of. */
export const COLOURS_OF = `
  const drawing = new OffscreenCanvas(1, 1).getContext("2d", { willReadFrequently: true });
  /** A colour in any form, as red, green, blue and how opaque it is, each of 0 to 1. */
  const parts = (colour) => {
    drawing.clearRect(0, 0, 1, 1);
    drawing.fillStyle = colour;
    drawing.fillRect(0, 0, 1, 1);
    return [...drawing.getImageData(0, 0, 1, 1).data].map((it) => it / 255);
  };
  const over = ([r, g, b, a], below) => [r, g, b].map((it, i) => it * a + below[i] * (1 - a));
  const light = (colour) => {
    const [r, g, b] = colour.map((it) => (it <= 0.04045 ? it / 12.92 : ((it + 0.055) / 1.055) ** 2.4));
    return 0.2126 * r + 0.7152 * g + 0.0722 * b;
  };
  const paper = parts(getComputedStyle(document.body).backgroundColor).slice(0, 3);
  const behind = (element) => {
    if (!element) return paper;
    const own = parts(getComputedStyle(element).backgroundColor);
    return own[3] === 1 ? own.slice(0, 3) : over(own, behind(element.parentElement));
  };
  const contrast = (element) => {
    let opacity = 1;
    for (let it = element; it; it = it.parentElement) opacity *= Number(getComputedStyle(it).opacity);
    const back = behind(element);
    const part = element.placeholder && !element.value ? "::placeholder" : null;
    const [r, g, b, a] = parts(getComputedStyle(element, part).color);
    const [low, high] = [light(back), light(over([r, g, b, a * opacity], back))].sort((one, other) => one - other);
    return (high + 0.05) / (low + 0.05);
  };`;

const WORST = `${COLOURS_OF}
  const found = new Set([...document.querySelectorAll("input:not([type=file]), select")]);
  const walker = document.createTreeWalker(document.body, NodeFilter.SHOW_TEXT);
  for (let node = walker.nextNode(); node; node = walker.nextNode()) {
    if (node.data.trim()) found.add(node.parentElement);
  }
  const isSeen = (it) => it instanceof HTMLElement && it.checkVisibility() && it.getClientRects().length > 0;
  const texts = [...found].filter(isSeen);
  const all = texts.map((it) => [contrast(it), it]).sort(([one], [other]) => one - other);
  const [worst, element] = all[0];
  const of = element.tagName + "." + element.className + " " + element.textContent.slice(0, 40);
  return { texts: texts.length, worst, of };`;

const TINTS = `${COLOURS_OF}
  const cells = [...document.querySelectorAll(".hex b[style]")].map((it) => light(behind(it)));
  return { cells: cells.length, least: Math.min(...cells), most: Math.max(...cells) };`;

/** How many texts are seen, and the least contrast of one, with that one. */
export const contrastOf = (page) => page.in(WORST);

/** How many coloured cells are seen, and how light the darkest and the lightest are, of 0 to 1. */
export const tintsOf = (page) => page.in(TINTS);

/** The contrast that is found for grey #777 on white. */
export const contrastOfGrey = (page) =>
  page.in(
    `const box = document.body.appendChild(document.createElement("p"));
     box.style = "color: #777; background: #fff";
     ${COLOURS_OF}
     const found = contrast(box).toFixed(2);
     box.remove();
     return found`,
  );
