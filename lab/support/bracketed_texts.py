"""Texts of pages in brackets, as a translation to be checked: text that a page shows without them isn't in the table of texts."""

from collections.abc import Mapping

from vecmon_lab.page.build import texts

IMPORT = "from support.bracketed_texts import bracket_texts; bracket_texts(); "
READ = texts.read_texts
# Texts outside of brackets in the order of the page, and those of attributes, each with its element; without those in elements of a selector.
UNBRACKETED = """
const [data] = arguments, found = new Set(), KEYS = /\\b(Alt|End|Enter|Escape|Home|Space|Tab)\\b/g;
const hasWord = (text) => /\\p{L}{2,}/u.test(text.replace(KEYS, ""));
const isShown = (element) => (element.closest("select") ?? element).checkVisibility() && !element.closest(data);
const name = (element) => element.id ? `#${element.id}` : `${element.parentElement?.id ?? ""} ${element.localName}.${element.className}`;
const outside = (text, depth = 0) => [...text].reduce(([kept, depth], letter) =>
  letter === "⟦" ? [kept, depth + 1] : letter === "⟧" ? [kept, depth - 1] : [depth ? kept : kept + letter, depth], ["", depth]);
const walker = document.createTreeWalker(document.body, NodeFilter.SHOW_TEXT);
let depth = 0;
while (walker.nextNode()) {
  const element = walker.currentNode.parentElement;
  if (element.closest("script, style, noscript")) continue;
  let text;
  [text, depth] = outside(walker.currentNode.data, depth);
  if (hasWord(text) && isShown(element)) found.add(`${name(element)}: ${text.trim()}`);
}
if (depth) found.add(`brackets: ${depth}`);
for (const element of document.querySelectorAll("[title], [aria-label], [placeholder], [aria-valuetext], [alt]")) {
  if (!isShown(element)) continue;
  for (const attribute of ["title", "aria-label", "placeholder", "aria-valuetext", "alt"]) {
    const [text] = outside(element.getAttribute(attribute) ?? "");
    if (hasWord(text)) found.add(`${name(element)} ${attribute}: ${text}`);
  }
}
if (hasWord(outside(document.title)[0].replace("vecmon", ""))) found.add(`title: ${document.title}`);
return [...found];
"""


def bracketed(language: str) -> Mapping[str, str]:
    """The texts of a language, each in brackets."""
    return {key: text if key == "language" else f"⟦{text}⟧" for key, text in READ(language).items()}


def bracket_texts() -> None:
    """Put the texts of pages that are built from now on into brackets."""
    texts.read_texts = bracketed  # type: ignore[assignment]
