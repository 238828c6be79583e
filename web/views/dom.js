// Small helpers for the document.
import { text } from '../text.js';

// Parts that are taken out of the document for a while, each with the mark where it stood. They are still found by their ids.
const aside = new Map();

export function byId(id) {
  const found = document.getElementById(id);
  if (found) return found;
  for (const part of aside.keys()) {
    if (part.id === id) return part;
    const inside = part.querySelector(`#${id}`);
    if (inside) return inside;
  }
  return null;
}

export function takeOut(part) {
  const mark = document.createComment('');
  part.replaceWith(mark);
  aside.set(part, mark);
}

export function putBack(part) {
  if (!aside.has(part)) return;
  aside.get(part).replaceWith(part);
  aside.delete(part);
}

// Forgets what was taken out: the page is drawn anew.
export function forgetAside() {
  aside.clear();
}

// An element with properties, attributes (`aria-..`, `data-..`, `role`) and children.
export function element(tag, properties = {}, ...children) {
  const made = document.createElement(tag);
  for (const [name, value] of Object.entries(properties)) {
    if (name.includes('-') || name === 'role') made.setAttribute(name, value);
    else made[name] = value;
  }
  made.append(...children);
  return made;
}

function textAt(path) {
  const words = path.split('.').reduce((part, name) => part[name], text);
  if (typeof words !== 'string') throw new Error(`text.js has no text ${path}`);
  return words;
}

// Puts the words of text.js where the document names them.
export function fillTexts(root) {
  for (const node of root.querySelectorAll('[data-text]')) node.textContent = textAt(node.dataset.text);
  for (const node of root.querySelectorAll('[data-label]')) node.setAttribute('aria-label', textAt(node.dataset.label));
  for (const node of root.querySelectorAll('[data-title]')) node.title = textAt(node.dataset.title);
}

// Fills a select with choices of a value and words.
export function fillSelect(select, choices, value) {
  select.replaceChildren(...choices.map(([id, words]) => element('option', { value: id, textContent: words })));
  if (value !== undefined) select.value = value;
}

export function setText(node, words) {
  if (node.textContent !== words) node.textContent = words;
}

// Bytes as letters, with a dot for what is none.
export function letters(bytes) {
  return Array.from(bytes, (x) => (x >= 32 && x < 127 ? String.fromCharCode(x) : '.')).join('');
}

export async function fileBytes(file) {
  return new Uint8Array(await file.arrayBuffer());
}

// A field for a file: `open(file)` is called for each that is chosen. The field is emptied, so that the same file can be chosen again.
export function onFile(id, open) {
  byId(id).addEventListener('change', (event) => {
    const [file] = event.target.files;
    event.target.value = '';
    if (file) open(file);
  });
}

// Says at the top of the window, and in the note beside the field, why a file is not opened.
export function refuser(say, noteId) {
  return (why) => {
    const words = text.files.refused(why);
    setText(byId(noteId), words);
    say(words);
  };
}

export function saveFile(name, parts) {
  const link = element('a', { href: URL.createObjectURL(new Blob(parts)), download: name });
  link.click();
  setTimeout(() => URL.revokeObjectURL(link.href), 1000);
}
