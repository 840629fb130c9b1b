// The kind of each element of the pages that has an id; a test compares them with the pages.

type Ids<Kind, Names extends string> = { [Name in Names]: Kind };

export type Parts =
  Ids<
    HTMLButtonElement,
    | "add-input" | "add-output" | "again" | "all-messages" | "assemble" | "back" | "backward" | "begin" | "break-here" | "by-address"
    | "by-ticks" | "check" | "close-sheet" | "first" | "fold-dock" | "fold-exercise" | "fold-state" | "forget" | "forth" | "go" | "halt"
    | "hand" | "home" | "last" | "line-back" | "line-go" | "line-next" | "link" | "lower-hand" | "many" | "new" | "new-in-c"
    | "new-program" | "next" | "next-help" | "next-pane" | "next-problem" | "no" | "now" | "on-wall" | "one" | "open-exercises"
    | "open-file" | "open-first" | "open-join" | "open-settings" | "open-sheet" | "open-source" | "previous-help" | "previous-pane"
    | "previous-problem" | "print" | "read" | "reset" | "save" | "send-it" | "show-codes" | "show-console" | "show-file" | "show-gift"
    | "show-keys" | "show-listing" | "show-memory" | "show-message" | "show-output" | "show-problems" | "show-reference"
    | "show-registers" | "show-source" | "show-variables" | "show-welcome" | "slice" | "start-over" | "step-once" | "step-out"
    | "step-over" | "tab-answers" | "tab-dock" | "tab-exercise" | "tab-program" | "tab-state" | "tab-vectors" | "take" | "to-exercises"
    | "to-start" | "unfold-exercise" | "until-go" | "show-other" | "use-own" | "yes"
  > &
  Ids<HTMLDListElement, "facts" | "keys" | "teacher-keys"> &
  Ids<HTMLDialogElement, "ask" | "copy" | "edit" | "exercises" | "join-class" | "key-list" | "settings"> &
  Ids<HTMLFieldSetElement, "controls" | "receivers"> &
  Ids<HTMLFormElement, "clocks" | "command" | "join" | "operate" | "sending" | "steps" | "until"> &
  Ids<
    HTMLInputElement,
    | "called" | "code" | "copied" | "find" | "gift-title" | "letters" | "line-types" | "memory-address" | "moment" | "name" | "number"
    | "open" | "place" | "until-line" | "value"
  > &
  Ids<HTMLLabelElement, "copied-name" | "edit-name" | "of-types"> &
  Ids<HTMLOListElement, "course-list" | "lessons" | "log" | "mistakes" | "operator-log" | "progress" | "slips"> &
  Ids<HTMLOutputElement, "count" | "moment-count"> &
  Ids<HTMLPreElement, "answer" | "c-start" | "output"> &
  Ids<HTMLScriptElement, "data" | "lesson" | "reference-data"> &
  Ids<
    HTMLSelectElement,
    | "against" | "answer-try" | "by" | "form" | "given-language" | "images" | "language" | "memory-form" | "names" | "numbers" | "operated"
    | "own-answers" | "text-size" | "versions" | "view" | "width"
  > &
  Ids<HTMLTableElement, "lengths" | "rows"> &
  Ids<HTMLTableSectionElement, "case-rows" | "codes" | "seats"> &
  Ids<HTMLTextAreaElement, "given" | "operator-line" | "source" | "words"> &
  Ids<HTMLTableRowElement, "columns"> &
  Ids<HTMLTemplateElement, "number-output"> &
  Ids<HTMLUListElement, "failures" | "in-memory" | "notices" | "points" | "sent" | "unsupported"> &
  Ids<HTMLSelectElement | HTMLTextAreaElement, "line"> &
  Ids<
    HTMLElement,
    | "about" | "announced" | "answer-says" | "answer-title" | "at" | "banner" | "beside" | "bytes" | "called-hint" | "calls" | "card"
    | "cases" | "code-hint" | "console" | "course" | "desk" | "detail" | "dock" | "editor" | "elements" | "entries" | "entry" | "examples"
    | "exercise" | "exercise-text" | "exercise-title" | "exercises-title" | "file" | "flame" | "gift" | "gone" | "head" | "help-count"
    | "hint" | "hints" | "inputs" | "introduction" | "introduction-title" | "join-says" | "join-title" | "key-says" | "key-title" | "left"
    | "left-column" | "line-ways" | "links" | "listing" | "machine" | "machines" | "memory" | "menu" | "message" | "middle" | "no-output"
    | "no-problems" | "opening" | "opening-title" | "operator-title" | "output-box" | "output-new" | "past" | "preview" | "problems"
    | "problems-count" | "program" | "program-title" | "question" | "reading" | "recent" | "reference" | "registers" | "right" | "roster"
    | "run" | "run-place" | "says-past" | "scalars" | "scalars-title" | "seat-answers" | "send" | "sent-says" | "sentence"
    | "series-place" | "settings-title" | "sheet" | "sheet-says" | "shoulder" | "shoulder-says" | "shoulder-title" | "sides"
    | "split-dock" | "split-exercise" | "split-left" | "split-middle" | "split-state" | "start" | "start-page" | "start-title" | "state"
    | "step" | "stepped" | "stepped-title" | "stop" | "summary" | "summary-says" | "tables" | "teacher" | "trouble" | "try-count"
    | "unencrypted" | "unused-registers" | "users" | "variables" | "vectors" | "vectors-title" | "verdict" | "welcome" | "welcome-title"
    | "who" | "why-no-c" | "windows" | "windows-say" | "written"
  >;
