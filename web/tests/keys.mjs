// The keys that tests press, as WebDriver names them.

const KEYS = {
  Tab: "\ue004",
  Enter: "\ue007",
  Shift: "\ue008",
  Control: "\ue009",
  End: "\ue010",
  Home: "\ue011",
  ArrowLeft: "\ue012",
  ArrowUp: "\ue013",
  ArrowRight: "\ue014",
  ArrowDown: "\ue015",
};

/** The actions of a key, as "Tab", "4" or "Shift+Tab". */
export function actionsOf(name) {
  const values = name.split("+").map((key) => KEYS[key] ?? key);
  const act = (type) => (value) => ({ type, value });
  const actions = [...values.map(act("keyDown")), ...values.reverse().map(act("keyUp"))];
  return [{ type: "key", id: "keyboard", actions }];
}
