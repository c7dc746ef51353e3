// The moments that the reader keeps: a lesson of their own, which stays in the browser and is saved as a text file that
// ./show opens.

const PLACE = "dine-moments";
export const OWN = "own";
export const SENT = "sent";

// What the browser keeps, or nothing where it may keep nothing.
export function kept(name) {
  try {
    return localStorage.getItem(name);
  } catch {
    return null;
  }
}

export function keep(name, text) {
  try {
    localStorage.setItem(name, text);
  } catch {
    // A browser that keeps nothing still shows the moments until the page is left.
  }
}

export function ownLesson() {
  const lesson = JSON.parse(kept(PLACE) ?? "null");
  return { path: OWN, title: lesson?.title ?? "My moments", moments: lesson?.moments ?? [] };
}

export function keepLesson({ title, moments }) {
  keep(PLACE, JSON.stringify({ title, moments }));
}

// A text as TOML writes it. Its basic strings take the escapes of JSON.
function quotedToml(text) {
  return JSON.stringify(text).replaceAll("\u007f", "\\u007f");
}

// The lesson as a text file.
export function tomlOf({ title, moments }) {
  const parts = [`title = ${quotedToml(title)}\n`];
  for (const moment of moments) {
    const plan = moment.plan ? `plan = ${quotedToml(moment.plan)}` : `text = ${quotedToml(moment.text)}`;
    const lines = ["[[moment]]", plan, `choices = ${quotedToml(moment.choices)}`, `at = ${moment.at}`];
    lines.push(`title = ${quotedToml(moment.title)}`, `note = ${quotedToml(moment.note)}`);
    parts.push(`${lines.join("\n")}\n`);
  }
  return parts.join("\n");
}

// Hands a text to the reader as a file.
export function saveFile(name, text) {
  const link = document.createElement("a");
  link.href = URL.createObjectURL(new Blob([text], { type: "text/plain" }));
  link.download = name;
  link.click();
  setTimeout(() => URL.revokeObjectURL(link.href), 1000);
}
