// The pane of elements: a column for each element of the last vector instruction, with its mask bit, its sources, and its value
// before and after it; or all vector registers. A press or an arrow key chooses an element, whose calculation is below the strips.

import { cardOf, paintCard, paintFacts } from "./card.js";
import { columnsOf, fit, stripsOf } from "./columns.js";
import { detailOf, elementEdit } from "./detail.js";
import { elementsIn, header, make, part, remPixels, unseen } from "../common/dom.js";
import { equationText } from "./equations.js";
import { headOf } from "./lane_rows.js";
import { textOf } from "../common/texts.js";
import { wiresPicture } from "./wires.js";
import { vectorType, withNames } from "../common/words.js";

/** @typedef {import("./instruction").View} View */
/** @typedef {import("./columns").Columns} Columns */
/** @typedef {import("./columns").Fit} Fit */
/** @typedef {import("./lane_rows").Row} Row */

/** Shows the elements of a machine's state in its root. */
export class Lanes {
  chosen = 0;
  register = -1; // the chosen row's, if there are several results
  room = { width: 0, unit: 1 }; // px: as `fit` takes it
  isOpen = false; // whether the tail is unfolded
  /** @type {View | undefined} */ view;
  /** @type {Columns | undefined} */ columns;
  /** @type {Fit} */ fit = { columns: 8, size: "medium", head: "wide" };

  /** @param {Element} root */
  constructor(root) {
    this.root = root;
    this.box = part(root, "elements");
    this.detail = part(root, "detail");
    this.box.addEventListener("click", ({ target }) => this.pressed(/** @type {Element} */ (target)));
    this.box.addEventListener("keydown", (event) => this.keyed(event));
    new ResizeObserver(([{ contentRect }]) => this.measured(contentRect.width)).observe(this.box);
  }

  /**
   * Shows a state, compared with the one before it.
   * @param {Omit<View, "form">} shown
   */
  show(shown) {
    const { instruction, vtype } = this.view?.state ?? {};
    if (shown.state.instruction !== instruction || shown.state.vtype !== vtype) this.isOpen = false;
    this.view = { ...shown, form: "signed" };
    this.paint();
  }

  /** Takes the room of the strips, in px, and paints them again where it is another one. */
  measured(/** @type {number} */ width) {
    const unit = remPixels() / 16;
    if (!width || (this.room.width === width && this.room.unit === unit)) return;
    this.room = { width, unit };
    this.paint();
  }

  paint() {
    if (!this.view) return;
    const { root, view: { state, before } } = this;
    const form = /** @type {import("../common/numbers").NumberForm} */ (part(root, "form").value || "signed");
    const width = part(root, "view").value === "all" ? Number(part(root, "width").value) || vectorType(state.vtype).sew : 0;
    this.view = { ...this.view, form, width };
    this.columns = columnsOf(this.view);
    paintFacts(part(root, "facts"), state, before);
    paintCard(part(root, "card"), cardOf(this.view, this.columns));
    root.classList.toggle("all", width > 0);
    this.paintStrips(this.view, this.columns);
  }

  /**
   * @param {View} view
   * @param {Columns} columns
   */
  paintStrips(view, columns) {
    const hadFocus = this.box.contains(document.activeElement) && document.activeElement !== this.box;
    this.fit = fit(columns, this.room);
    const { strips, folded } = stripsOf(columns, this.fit.columns, this.isOpen);
    const open = make("button", "", textOf("lanes.folded", { first: folded, last: columns.elements - 1 }));
    const wide = Object.assign(make("td", "", open), { colSpan: this.fit.columns + 1 });
    const tail = folded < columns.elements ? [make("tbody", "folded", make("tr", "", wide))] : [];
    const ofRegisters = view.width ? textOf("lanes.all.label") : textOf("lanes.used.label");
    const instruction = withNames((view.state.code[view.state.instruction ?? ""] ?? "").slice(9), view.hasAbiNames);
    const ariaLabel = columns.executed ? textOf("lanes.executed.label", { instruction }) : ofRegisters;
    const parts = [make("colgroup", "", make("col", "head")), ...strips.map((first) => this.strip(view, columns, first)), ...tail];
    const grid = Object.assign(make("table", `lanes ${this.fit.size} ${this.fit.head}`, ...parts), { role: "grid", ariaLabel });
    this.box.replaceChildren(columns.rows.length ? grid : make("p", "empty", textOf("lanes.none")));
    this.choose(view, columns, Math.min(this.chosen, Math.max(0, columns.elements - 1)), hadFocus);
  }

  /**
   * @param {View} view
   * @param {Columns} columns
   * @param {number} first
   */
  strip(view, { elements, pairs, rows }, first) {
    const colSpan = this.fit.columns;
    const places = Array.from({ length: Math.min(colSpan, elements - first) }, (_, place) => first + place);
    const numbers = places.map((element) => header("col", `${element}`));
    const heads = make("tr", "numbers", header("row", make("small", "", textOf("lanes.element"))), ...numbers);
    const shown = rows.filter(({ cells }) => cells.length > first);
    const made = shown.map((row) => this.row(view, row, headOf(row, first, first + places.length - 1), places));
    if (pairs.length) {
      const picture = Object.assign(make("td", "", wiresPicture(pairs, first, colSpan)), { colSpan });
      made.splice(shown.findIndex(({ kind }) => /before|after/.test(kind)), 0, make("tr", "wires", make("td", ""), picture));
    }
    return make("tbody", "", heads, ...made);
  }

  /**
   * @param {View} view
   * @param {Row} row
   * @param {string} head
   * @param {number[]} places of its elements
   */
  row(view, { kind, register, width, words, cells }, head, places) {
    const what = make("small", kind !== "plain" && /\d$/.test(words) ? "field" : "", words);
    const made = places.filter((element) => cells[element]).map((element) => {
      const cell = cells[element];
      const where = [textOf("lanes.cell", { element, head }), words].filter(Boolean).join(", ");
      const title = [where, cell.words].filter(Boolean).join(": ");
      const outcome = cell.words || (cell.classes.includes("active") ? textOf("outcome.active") : "");
      const ariaLabel = textOf("lanes.cell.label", { where, value: cell.text, outcome }).replace(/, $/, "");
      const shown = Object.assign(make("td", cell.classes.join(" "), cell.text), { role: "gridcell", title, ariaLabel });
      shown.dataset.element = `${element}`;
      if (cell.words) shown.append(unseen(` ${cell.words}`));
      if (view.width) shown.dataset.edit = elementEdit(view, register, width, element);
      return shown;
    });
    const shown = make("tr", kind, header("row", make("b", "", head), ...(words ? [" ", what] : [])), ...made);
    if (register >= 0) shown.dataset.register = `${register}`;
    return shown;
  }

  /** @param {Element} target */
  pressed(target) {
    const cell = /** @type {HTMLElement | null} */ (target.closest("td[data-element]"));
    if (target.matches(".folded button")) {
      this.isOpen = true;
      this.paint();
    }
    if (cell && this.view && this.columns) this.chooseCell(this.view, this.columns, cell);
  }

  /** @param {KeyboardEvent} event */
  keyed(event) {
    const { view, columns, chosen } = this;
    const own = /** @type {HTMLTableCellElement | null} */ (this.box.querySelector("td[tabindex]"));
    if (!view || !columns || !own || event.ctrlKey || event.altKey || event.metaKey) return;
    if (event.key === "Enter" && event.target === own) {
      event.preventDefault(); // or the dialog takes the same key
      this.detail.querySelector("button")?.click();
    }
    const down = { ArrowDown: 1, ArrowUp: -1 }[event.key];
    const goal = { ArrowLeft: chosen - 1, ArrowRight: chosen + 1, Home: 0, End: columns.elements - 1 }[event.key];
    if (!down && goal === undefined) return;
    event.preventDefault();
    const column = elementsIn(this.box, `:is(.after, .plain) > :nth-child(${own.cellIndex + 1})`);
    const cell = down && column[column.indexOf(own) + down];
    if (cell) return this.chooseCell(view, columns, cell);
    if (goal !== undefined && goal >= 0 && goal < columns.elements) this.choose(view, columns, goal, true);
    return undefined;
  }

  /**
   * Chooses the element of a cell, and its register where there are several results.
   * @param {View} view
   * @param {Columns} columns
   * @param {HTMLElement} cell
   */
  chooseCell(view, columns, cell) {
    this.register = Number(cell.parentElement?.dataset.register ?? -1);
    this.choose(view, columns, Number(cell.dataset.element), true);
  }

  /**
   * Chooses an element: marks its column, its sources and its curves, and shows its calculation.
   * @param {View} view
   * @param {Columns} columns
   * @param {number} element
   * @param {boolean} takesFocus
   */
  choose(view, columns, element, takesFocus) {
    this.chosen = element;
    const own = elementsIn(this.box, `td[data-element="${element}"]`);
    if (!own.length && !this.isOpen && columns.rows.length) {
      this.isOpen = true; // the element is in the folded tail
      return this.paintStrips(view, columns);
    }
    const isMove = columns.executed?.layout !== "reduce"; // then the cells above curves go to others
    const source = columns.pairs.find(([, to]) => to === element)?.[0] ?? -1;
    for (const cell of elementsIn(this.box, "td[data-element]")) {
      const wanted = isMove && cell.matches("tr:has(+ .wires) > td") ? source : element;
      const isChosen = Number(cell.dataset.element) === wanted;
      cell.classList.toggle("chosen", isChosen);
      cell.ariaSelected = `${isChosen}`;
      cell.removeAttribute("tabindex");
      cell.removeAttribute("aria-describedby");
    }
    for (const curve of this.box.querySelectorAll("path")) curve.classList.toggle("chosen", curve.dataset.to === `${element}`);
    const results = own.filter((cell) => cell.matches(":is(.after, .plain) > td"));
    const reached = results.find((cell) => cell.matches(`[data-register="${this.register}"] > td`)) ?? results[0] ?? own.at(-1);
    if (reached) reached.tabIndex = 0;
    reached?.setAttribute("aria-describedby", this.detail.id); // which has the reason for its value
    if (takesFocus) reached?.focus();
    this.paintDetail(view, columns);
  }

  /**
   * @param {View} view
   * @param {Columns} columns
   */
  paintDetail(view, columns) {
    const equation = equationText(view, columns.executed, this.chosen);
    const { name, place, sentence, value, edit } = detailOf(view, columns, this.chosen, this.register);
    const parts = [make("b", "", name), make("small", "", place), make("span", "", sentence), make("code", "", equation)];
    const change = Object.assign(make("button", "change", textOf("detail.change")), { title: textOf("detail.change.title") });
    Object.assign(change.dataset, { value, edit });
    this.detail.replaceChildren(...parts.filter((part) => part.textContent), ...(edit ? [change] : []));
  }
}
