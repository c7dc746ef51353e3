// The words of the page by a tap: a word of a text is a button that says what it means, in a dialog with all words.

import { WORDS, partsOf } from "./glossary.js";
import { textElement } from "./marks.js";
import { found } from "./session.js";

// Opens the dialog of words, at one of them if a key is given.
export function openWords(key = null) {
  const list = found("words-list");
  if (!list.children.length) {
    for (const { key: its, title, text } of WORDS) {
      const entry = textElement("div", "", "entry");
      entry.dataset.key = its;
      entry.append(textElement("dt", title), textElement("dd", text));
      list.append(entry);
    }
  }
  for (const entry of list.children) entry.classList.toggle("asked", entry.dataset.key === key);
  found("words").showModal();
  list.scrollTop = 0;
  const asked = list.querySelector(".asked");
  if (asked) list.scrollTop = asked.offsetTop - list.offsetTop;
}

// A button that says what a word means.
export function wordButton(text, key, kind = "") {
  const button = textElement("button", text, `word explained ${kind}`.trim());
  button.type = "button";
  button.addEventListener("click", () => openWords(key));
  return button;
}

// An element with a text, in which words have the colours of what they name, and the first of each kind is explained by
// a tap.
export function explainedElement(name, text) {
  const made = document.createElement(name);
  let word = null;
  for (const { text: part, key, colour, isFirst } of partsOf(text)) {
    // No line breaks between a word and the mark behind it. Of several words it may break, as they may not fit in one.
    const [mark] = word && !colour && !isFirst && !/\s/.test(word.textContent) ? /^[^\s\w]*/.exec(part) : [""];
    if (mark) {
      const both = textElement("span", "", "unbroken");
      word.replaceWith(both);
      both.append(word, mark);
    }
    const rest = part.slice(mark.length);
    if (isFirst) word = wordButton(part, key, colour);
    else word = colour ? textElement("b", part, `word ${colour}`) : null;
    made.append(word ?? rest);
  }
  return made;
}
