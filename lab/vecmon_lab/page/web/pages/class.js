// A tab of the class: its code, its messages, and its page.

import { Connection } from "../common/connection.js";
import { ask, byId, put, say } from "../common/dom.js";
import { isLink } from "../editor/links.js";
import { patched } from "../common/patches.js";
import { offerLineTypes, offerTextSizes } from "../common/preferences.js";
import { Student } from "../seat/student.js";
import { Teacher } from "../teacher/teacher.js";
import { textOf } from "../common/texts.js";
import { Wall } from "../teacher/wall.js";

/** Starts again with a code, or with none. The code is stored only for this tab's session, and not in the address. */
function sitDown(/** @type {string} */ code) {
  if (![code, null].includes(sessionStorage.getItem("code"))) sessionStorage.clear(); // it was somebody else's
  if (code) sessionStorage.setItem("code", code);
}

/** Takes the part of the address after #: a source, which waits for a seat, or a code. */
function takeHash() {
  if (isLink(location.hash)) sessionStorage.setItem("linked", location.hash);
  else sitDown(location.hash.slice(1));
  history.replaceState(null, "", location.pathname);
}

/** Asks for a code in place of one that opens nothing, which stays in the field for a correction. */
function askForCode(words = "", wrong = "") {
  for (const id of /** @type {const} */ (["head", "teacher", "desk"])) byId(id).hidden = true;
  byId("join").hidden = false;
  say("gone", "");
  put(byId("join-says"), words);
  Object.assign(byId("code"), { value: wrong, ariaInvalid: `${words !== ""}` });
  byId("called").value = sessionStorage.getItem("name") ?? "";
  byId("code").focus();
  byId("code").select();
}

/** Begins the page of a role, which is the name of a seat for a student. */
function begin(role = "") {
  byId("head").hidden = false;
  byId("desk").hidden = false;
  document.body.classList.add({ teacher: "teaching", wall: "watching" }[role] ?? "studying");
  document.body.classList.toggle("alone", Boolean(view.title));
  if (role !== "wall") offerTextSizes(byId("text-size"));
  offerLineTypes(byId("line-types"));
  const Page = { teacher: Teacher, wall: Wall }[role] ?? Student;
  return new Page(document.body, connection);
}

/** @type {import("../types").Listener} */
const listener = {
  told({ kind, who, patch = {}, logs = {} }) {
    const isAnew = kind === "hello";
    view = patched(isAnew ? {} : view, patch);
    say("trouble", view.trouble);
    page ??= begin(who);
    page.show(view, logs, isAnew);
  },
  gone(words) {
    say("gone", words);
    page?.showConnection?.();
  },
  ended(words) {
    sessionStorage.removeItem("code");
    askForCode(words, code);
  },
};

window.addEventListener("hashchange", () => {
  takeHash();
  location.reload();
});
byId("forget").onclick = () => ask(textOf("class.leaving"), textOf("menu.leave"), () => {
  sitDown("");
  addEventListener("pagehide", () => sessionStorage.clear()); // after others have kept what a reload brings back
  location.reload();
});
document.addEventListener("submit", (event) => /** @type {HTMLFormElement} */ (event.target).method !== "dialog" && event.preventDefault());
byId("join").onsubmit = () => {
  sitDown(byId("code").value.toLowerCase().replace(/[\s-]/g, ""));
  if (byId("called").value) sessionStorage.setItem("name", byId("called").value);
  location.reload();
};
if (location.hash) takeHash();
const code = sessionStorage.getItem("code") ?? "";
let view = /** @type {import("../types").View} */ ({});
/** @type {import("../types").RolePage | undefined} */ let page;
/** @type {import("../types").Connection} */ let connection;
if (code) connection = new Connection(code, listener);
else askForCode();
