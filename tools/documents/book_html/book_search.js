// The search of the book: a part of each page that was found, with the words that were searched.
"use strict";

const BEFORE = 60; // characters before the first word
const LENGTH = 240; // characters of a part
const waiting = new Map(); // functions that take the text of a page, by the page's name

/** Takes the text of a page, whose script calls this. */
function bookText(page, text) {
  waiting.get(page)?.(text);
}

/** Loads the text of a page. */
function loadText(page) {
  return new Promise((resolve) => {
    waiting.set(page, resolve);
    const script = document.createElement("script");
    script.src = `_static/excerpts/${page.replaceAll("/", "-")}.js`;
    document.head.append(script);
  });
}

/** The part of a text around the first of some words, in small letters. */
function partOf(text, words) {
  const places = words.map((word) => text.toLowerCase().indexOf(word)).filter((place) => place >= 0);
  const start = Math.max(0, Math.min(...places, text.length) - BEFORE);
  const first = start && places.length ? text.indexOf(" ", start) + 1 : 0; // at the beginning of a word
  const part = text.slice(first, first + LENGTH);
  return `${first ? "… " : ""}${part}${first + LENGTH < text.length ? " …" : ""}`;
}

/** Adds a part of its page to a result. */
async function addPart(result) {
  const [page] = result.querySelector("a").getAttribute("href").split(/\.html/);
  const words = (new URLSearchParams(location.search).get("q") ?? "").toLowerCase().split(/\s+/).filter(Boolean);
  const shown = document.createElement("p");
  shown.className = "context";
  shown.textContent = partOf(await loadText(page), words);
  result.append(shown);
  words.forEach((word) => _highlightText(shown, word, "highlighted"));
}

document.addEventListener("DOMContentLoaded", () => {
  const observer = new MutationObserver((changes) => {
    const added = changes.flatMap((change) => [...change.addedNodes]);
    added.filter((node) => node.localName === "li").forEach(addPart);
  });
  observer.observe(document.getElementById("search-results"), { childList: true, subtree: true });
});
