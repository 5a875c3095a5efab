// A picture along which the pointer or the arrow keys go, with a label that says what is there. A click or Enter shows
// it.

/** How many steps of PageDown there are from one end to the other. */
const PAGES = 16;

function child(box, name) {
  const made = document.createElement("div");
  made.className = name;
  made.hidden = true;
  made.setAttribute("aria-hidden", "true");
  box.append(made);
  return made;
}

export class Picture {
  constructor(canvas, label) {
    const box = document.createElement("div");
    box.className = "picture";
    canvas.replaceWith(box);
    box.append(canvas);
    canvas.tabIndex = 0;
    canvas.setAttribute("role", "slider");
    canvas.setAttribute("aria-label", label);
    canvas.setAttribute("aria-valuemin", 0);
    this.box = box;
    this.canvas = canvas;
    this.mark = child(box, "picture-mark");
    this.tip = child(box, "picture-tip");
    this.scene = null;
    this.#listen();
    new ResizeObserver(() => canvas.clientWidth !== this.drawn && this.draw()).observe(box);
  }

  /** Shows a scene, or nothing. `scene.part(at)` is the part {from, to, text} to which a number below `scene.length`
   * belongs, `scene.go(at)` shows it elsewhere, and `scene.draw(canvas, at)` draws all, with what is at `at` chosen
   * where the scene `follows`. `scene.share(at)` and `scene.at(share)` say where across the picture a number stands. */
  show(scene) {
    this.scene = scene?.length > 0 ? scene : null;
    this.box.hidden = !this.scene;
    this.#leave();
    if (!this.scene) return;
    this.canvas.setAttribute("aria-valuemax", scene.length - 1);
    this.#tell(0);
    this.draw();
  }

  draw() {
    this.drawn = this.canvas.clientWidth;
    if (this.scene && this.drawn > 0) this.scene.draw(this.canvas, this.mark.hidden ? null : this.at);
  }

  #tell(at) {
    this.at = at;
    const { text } = this.scene.part(at);
    this.canvas.setAttribute("aria-valuenow", at);
    this.canvas.setAttribute("aria-valuetext", text);
    return text;
  }

  #listen() {
    const { canvas } = this;
    canvas.addEventListener("keydown", (event) => this.#key(event));
    canvas.addEventListener("focus", () => canvas.matches(":focus-visible") && this.#point(this.at));
    canvas.addEventListener("blur", () => this.#leave());
    canvas.addEventListener("pointermove", (event) => this.#point(this.#under(event)));
    canvas.addEventListener("pointerleave", () => this.#leave());
    canvas.addEventListener("click", (event) => this.scene.go(this.#under(event)));
  }

  #under(event) {
    const share = event.offsetX / this.canvas.clientWidth;
    return Math.min(Math.max(0, Math.floor(this.scene.at(share))), this.scene.length - 1);
  }

  #key(event) {
    const { scene, at } = this;
    if (!scene) return;
    if (event.key === "Enter") scene.go(at);
    const last = scene.length - 1;
    const page = Math.max(1, Math.ceil(scene.length / PAGES));
    const { from, to } = scene.part(at);
    const near = { ArrowLeft: from - 1, ArrowRight: to, PageUp: at - page, PageDown: at + page };
    const next = { ...near, Home: 0, End: last }[event.key];
    if (next === undefined) return;
    event.preventDefault();
    this.#point(scene.part(Math.min(Math.max(0, next), last)).from);
  }

  /** Marks the part at a number, and says what it is. */
  #point(at) {
    this.tip.textContent = this.#tell(at);
    const { from, to } = this.scene.part(at);
    const { clientWidth } = this.box;
    const left = this.scene.share(from) * clientWidth;
    const right = Math.max(left + 2, this.scene.share(to) * clientWidth);
    this.mark.hidden = false;
    this.tip.hidden = false;
    this.mark.style.left = `${left}px`;
    this.mark.style.width = `${right - left}px`;
    const most = Math.max(0, clientWidth - this.tip.offsetWidth);
    this.tip.style.left = `${Math.min(Math.max(0, (left + right - this.tip.offsetWidth) / 2), most)}px`;
    if (this.scene.follows) this.draw();
  }

  #leave() {
    const wasSeen = !this.mark.hidden;
    this.mark.hidden = true;
    this.tip.hidden = true;
    if (wasSeen && this.scene?.follows) this.draw();
  }
}
