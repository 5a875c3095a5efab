// Whether the page is being printed. Paper is white, so that colours are those of light then.

export const paper = { isPrinted: false };

addEventListener("beforeprint", () => (paper.isPrinted = true));
addEventListener("afterprint", () => (paper.isPrinted = false));
