"use strict";
const root = document.documentElement, find = id => document.getElementById(id);
for (const place of document.querySelectorAll(".live")) place.hidden = false;

// A button in a place.
const button = (place, label, act) => {
  const made = document.createElement("button");
  made.type = "button";
  made.textContent = label;
  made.addEventListener("click", () => act(made));
  place.append(made, " ");
};

// The whole derivation that the steps of an entry begin: each premise's steps before it, line by line, with what the rules say.
const sentence = place => {
  const told = document.createElement("span");
  told.className = "why";
  told.append(...find(place).nextElementSibling.cloneNode(true).childNodes);
  return told;
};
const derive = (steps, lines, numbers) => {
  const own = [];
  for (const step of steps.children) {
    const line = step.cloneNode(true);
    for (const premise of line.querySelectorAll("a[href^='#b']")) {
      const behind = find(premise.hash.slice(1)).querySelector(`ol.${premise.textContent.includes("≥") ? "lower" : "upper"}`);
      const number = numbers.get(behind) || derive(behind, lines, numbers);
      premise.textContent = number;
    }
    for (const premise of line.querySelectorAll("b")) premise.textContent = own[premise.textContent - 1];
    line.append(sentence(line.querySelector("a[href^='#r-']").hash.slice(1)));
    own.push(lines.push(line));
  }
  numbers.set(steps, lines.length);
  return lines.length;
};
const unfold = entry => {
  if (entry.dataset.whole) return;
  entry.dataset.whole = "yes";
  for (const steps of [...entry.querySelectorAll("ol")]) {
    const lines = [], whole = document.createElement("ol");
    derive(steps, lines, new Map());
    whole.className = "whole";
    whole.append(...lines);
    steps.hidden = true;
    steps.after(whole);
  }
  const cite = document.createElement("p"), command = document.createElement("code");
  command.textContent = `tools/cite.py ${entry.id.slice(1).replaceAll("-", " ")} SESSION ..`;
  cite.append("It is cited with all that it rests on by ", command);
  entry.append(cite);
};

// The documents of the pieces, which are compressed until one is asked for.
let documents;
const read = async () => {
  const bytes = Uint8Array.from(atob(find("documents").textContent), sign => sign.charCodeAt(0));
  return JSON.parse(await new Response(new Blob([bytes]).stream().pipeThrough(new DecompressionStream("gzip"))).text());
};
const show = async piece => {
  if (piece.querySelector("pre")) return;
  const shown = document.createElement("pre"), tools = document.createElement("p"), id = piece.id.slice(2);
  piece.append(tools, shown);
  documents = documents || read();
  const text = (await documents)[id];
  shown.textContent = text;
  button(tools, "copy the document", async made => {
    try {
      await navigator.clipboard.writeText(text);
      made.textContent = "copied";
    } catch {
      getSelection().selectAllChildren(shown);
      made.textContent = "selected: copy it";
    }
  });
  button(tools, "download", () => {
    const link = document.createElement("a");
    link.href = URL.createObjectURL(new Blob([text], { type: "text/plain" }));
    link.download = `${id}.toml`;
    link.click();
    URL.revokeObjectURL(link.href);
  });
};

// What an anchor leads to is unfolded, and all of a table that is scrolled by itself is in sight, so that its header is seen.
const reveal = () => {
  const end = find(decodeURIComponent(location.hash.slice(1))), box = end && end.closest(".scroll");
  if (end && end.matches("article.piece")) show(end);
  else if (end && end.matches("article")) unfold(end);
  if (box && box.scrollHeight > box.clientHeight) box.scrollIntoView({ block: "nearest" });
};
addEventListener("hashchange", reveal);
addEventListener("load", reveal);

// The field: two or three numbers of an entry, however they are parted.
const go = find("go"), told = go.querySelector("output");
go.addEventListener("submit", event => {
  event.preventDefault();
  const name = "a" + (go.entry.value.match(/\d+/g) || []).map(Number).join("-"), end = find(name);
  told.textContent = end ? "" : "The table has no such entry.";
  if (!end) return;
  find("all").checked = true;
  location.hash = name;
  const cell = end.closest("td");
  if (cell) focusOn(cell);
});

// The arrow keys go from cell to cell, over empty and hidden ones; Escape closes an entry.
const focusOn = cell => {
  const link = cell.querySelector("a") || cell;
  if (link === cell) cell.tabIndex = -1;
  link.focus({ focusVisible: true });
};
const steps = { ArrowLeft: [0, -1], ArrowRight: [0, 1], ArrowUp: [-1, 0], ArrowDown: [1, 0] };
addEventListener("keydown", event => {
  const entry = document.querySelector("article:target");
  if (event.key === "Escape" && entry) {
    const close = entry.querySelector(".x"), cell = find(close.hash.slice(1));
    location.hash = close.hash;
    if (cell && cell.matches("td")) focusOn(cell);
  }
  const cell = document.activeElement && document.activeElement.closest("td"), step = steps[event.key];
  if (!cell || !step || event.altKey || event.ctrlKey || event.metaKey || event.shiftKey) return;
  const rows = cell.closest("tbody").rows;
  let row = cell.parentElement.sectionRowIndex, column = cell.cellIndex, next;
  do next = rows[row += step[0]] && rows[row].cells[column += step[1]];
  while (next && next.tagName === "TD" && (!next.id || !next.checkVisibility() || getComputedStyle(next.querySelector("a") || next).visibility === "hidden"));
  if (!next || next.tagName !== "TD") return;
  event.preventDefault();
  focusOn(next);
});

// Light or dark, as the system says until it is chosen here.
find("shade").addEventListener("click", () => {
  const dark = root.dataset.theme ? root.dataset.theme === "dark" : matchMedia("(prefers-color-scheme: dark)").matches;
  root.dataset.theme = dark ? "light" : "dark";
});
reveal();
