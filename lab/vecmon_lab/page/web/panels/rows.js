// Tables of rows by address, with gaps and labels.

import { header, make, renew, table, unseen } from "../common/dom.js";

const MOST_MADE = 200; // rows that are made whether they are in sight or not
const BLOCK = 25; // rows that are made together
const AROUND = "400px"; // above and below what is in sight, where rows are made

/** @typedef {{ address: string, text?: undefined, kind?: undefined } | { address?: undefined, text: string, kind: string }} Place */
/** @typedef {(address: string) => HTMLTableRowElement} MakeRow */

/** Addresses, which are hexadecimal digits, in rising order. */
export const inOrder = (/** @type {string[]} */ addresses) =>
  addresses.sort((one, other) => one.length - other.length || (one < other ? -1 : 1));

/**
 * The content of a table of rows by address: { address } for a row, { text, kind } for a gap where one doesn't follow the one before, and
 * for a label above the row in which its address is. bytesOf: the number of bytes of a row
 * @type {(addresses: string[], bytesOf: (address: string) => number, labels?: Record<string, string[]>) => Place[]}
 */
export function placesOf(addresses, bytesOf, labels = {}) {
  const named = inOrder(Object.keys(labels)).map((address) => ({ at: BigInt(`0x${address}`), names: labels[address] }));
  let next = 0; // of the labels
  let end = -1n; // of the row before
  return inOrder(addresses).flatMap((address) => {
    const start = BigInt(`0x${address}`);
    /** @type {Place[]} */
    const places = end >= 0n && start > end ? [{ text: "⋯", kind: "gap" }] : [];
    end = start + BigInt(bytesOf(address));
    for (; next < named.length && named[next].at < end; next += 1) {
      const names = named[next].at < start ? [] : named[next].names;
      places.push(...names.map((name) => ({ text: `${name}:`, kind: "label" })));
    }
    return [...places, { address }];
  });
}

/**
 * A table in a box that scrolls. Its rows are in blocks; if there are many rows, those of blocks out of sight aren't made.
 * All rows are one line high.
 */
export class RowTable {
  /** @type {Place[]} */ places = [];
  /** @type {MakeRow} */ makeRow = () => make("tr", "");
  /** @type {string | undefined} */ seen = "";
  /** @type {Set<Element>} */ near = new Set(); // blocks in sight, or nearly
  room = 0; // px in sight
  line = 0; // px of a row

  /**
   * @param {HTMLElement} box
   * @param {string} caption
   * @param {string[]} names of its columns
   * @param {string} empty a sentence where there are no rows
   */
  constructor(box, caption, names, empty) {
    this.table = table(caption, make("thead", "", make("tr", "", ...names.map((name) => header("col", unseen(name))))));
    this.box = box;
    this.empty = make("p", "empty", empty);
    this.columns = names.length;
    this.observer = new IntersectionObserver((entries) => this.moved(entries), { root: box, rootMargin: AROUND });
    new ResizeObserver(() => this.resized()).observe(box);
  }

  /** Shows places, each row as `makeRow` makes it of its address. The row of `seen` comes into sight, once. */
  show(/** @type {Place[]} */ places, /** @type {MakeRow} */ makeRow, /** @type {string | undefined} */ seen) {
    const isOther = seen !== this.seen || places.length !== this.places.length;
    Object.assign(this, { places, makeRow, seen });
    const shown = places.length ? this.table : this.empty;
    if (this.box.firstChild !== shown) this.box.replaceChildren(shown);
    this.table.ariaRowCount = `${places.length}`;
    while (this.table.tBodies.length * BLOCK < places.length) this.observer.observe(this.table.createTBody());
    this.paint();
    if (isOther) queueMicrotask(() => this.bringIntoSight()); // once all panels are painted, so that they are laid out once
  }

  moved(/** @type {IntersectionObserverEntry[]} */ entries) {
    for (const { target, isIntersecting } of entries) this.near[isIntersecting ? "add" : "delete"](target);
    if (this.places.length > MOST_MADE) this.paint();
  }

  /** Keeps the same rows in sight if letters have another size; scrolls again if the box was hidden, or the window is another one. */
  resized() {
    const { room, line } = this;
    Object.assign(this, { room: this.box.clientHeight, line: parseFloat(getComputedStyle(this.table).lineHeight) });
    this.box.scrollTop = Math.round(this.box.scrollTop / (line || this.line)) * this.line; // whole rows, since a lower table scrolls less
    if (Math.abs(this.room - room) > 60) this.bringIntoSight();
  }

  /** Scrolls the row into sight with two rows before it and two after it; else it comes to the upper third. */
  bringIntoSight() {
    const { box: { scrollTop, clientHeight }, places, table, seen } = this;
    const height = table.offsetHeight / places.length;
    const top = places.findIndex(({ address }) => address && address === seen) * height;
    const isSeen = top >= scrollTop + 2 * height && top <= scrollTop + clientHeight - 3 * height;
    if (top >= 0 && !isSeen) this.box.scrollTop = top - clientHeight / 3;
  }

  paint() {
    [...this.table.tBodies].forEach((block, number) => {
      const places = this.places.slice(number * BLOCK, (number + 1) * BLOCK);
      const isMade = this.places.length <= MOST_MADE || this.near.has(block);
      const unmade = () => [Object.assign(make("tr", ""), { style: `height: ${places.length}lh` })];
      renew(block, isMade ? places.map((place, at) => this.row(place, number * BLOCK + at)) : unmade());
    });
  }

  /** @type {(place: Place, at: number) => HTMLTableRowElement} */
  row({ address, kind = "", text = "" }, at) {
    const row = address ? this.makeRow(address) : make("tr", "", Object.assign(make("td", kind, text), { colSpan: this.columns }));
    return Object.assign(row, { ariaRowIndex: `${at + 1}` });
  }
}
