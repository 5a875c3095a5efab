// The readings of an input that is spelled otherwise: as it is, and in its plain spelling, one beside the other.

import { counted } from "./names.js";

const NAMES = ["As it is", "In its plain spelling"];

function resultText({ about, fault }) {
  const { refusal, hunks, declared, units, findings } = about;
  if (refusal) return `refused at byte ${fault}, ${refusal.reason}`;
  if (hunks > 0) return `a load file: ${counted(hunks, "hunk")}, ${counted(declared, "byte")} in memory`;
  return `an object file: ${counted(units, "unit")}, ${counted(findings, "finding")}`;
}

/** A button for each reading of a file; `choose(i)` is called for the one that is to be shown. */
export function showReadings(box, file, choose) {
  const isFocused = box.contains(document.activeElement);
  box.hidden = file.readings.length === 1;
  const buttons = file.readings.map((reading, i) => {
    const button = document.createElement("button");
    const name = Object.assign(document.createElement("strong"), { textContent: NAMES[i] });
    const result = Object.assign(document.createElement("span"), { textContent: resultText(reading) });
    button.append(name, " ", result);
    button.setAttribute("aria-pressed", String(reading === file.reading));
    button.addEventListener("click", () => choose(i));
    return button;
  });
  box.replaceChildren(...(box.hidden ? [] : buttons));
  if (isFocused) box.querySelector("[aria-pressed=true]")?.focus();
}
