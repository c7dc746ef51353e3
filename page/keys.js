// The keys. Arrows, Home, End and space step through the schedule wherever the focus is, except in a text; they never
// change a menu or a slider.

const UP_DOWN = new Set(["ArrowUp", "ArrowDown"]);

// What the focus is on, as far as it matters to keys.
function kindOf(target) {
  if (target.closest("textarea, input[type=text], input[type=number]")) return "text";
  if (target.closest("select")) return "menu";
  if (target.closest("input[type=range]")) return "slider";
  if (target.closest("input[type=radio]")) return "choice";
  return target.closest("button, input, summary, a") ? "button" : "page";
}

// Opens a menu, by which it is chosen from with the keys that the browser has for it.
export function openMenu(menu) {
  menu.focus();
  try {
    menu.showPicker();
  } catch {
    // A browser without it leaves the menu with the focus.
  }
}

export class Keys {
  // `does` does what a key does, if it does anything, and `hasLetters` says whether keys of one letter do.
  constructor({ does, hasLetters }) {
    Object.assign(this, { does, hasLetters });
    document.addEventListener("keydown", (event) => this.hear(event));
  }

  hear(event) {
    const { key, target } = event;
    if (document.querySelector("dialog[open]")) return;
    const kind = kindOf(target);
    if ((event.ctrlKey || event.metaKey) && key === "z" && kind !== "text" && this.does("Undo")) event.preventDefault();
    if (event.ctrlKey || event.metaKey || event.altKey) return;
    if (kind === "text") {
      if (key === "Escape" || (key === "Enter" && target.matches("input"))) target.blur();
      return;
    }
    if (kind === "menu" && (UP_DOWN.has(key) || key === "Enter")) {
      event.preventDefault();
      openMenu(target);
      return;
    }
    if (kind === "slider" && UP_DOWN.has(key)) event.preventDefault();
    if ((kind === "button" || kind === "choice") && (key === " " || key === "Enter")) return;
    // Arrows go along the answers to choose from.
    if (kind === "choice" && key.startsWith("Arrow")) return;
    this.doKey(event, kind);
  }

  doKey(event, kind) {
    const { key } = event;
    const isLetter = key.length === 1 && key !== " ";
    // A key of one letter queue on what has the focus even if such keys are turned off: + and - on the slider.
    if (isLetter && !this.hasLetters() && !(kind === "slider" && "+-=".includes(key))) return;
    if (kind === "menu" && isLetter) return;
    // Space that is held down does not play and pause in turn.
    if ((key === " " && event.repeat) || this.does(isLetter ? key.toLowerCase() : key)) event.preventDefault();
  }
}
