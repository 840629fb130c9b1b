"""The tries of a page's seat at exercises, which are saved as texts."""

import json

from ..classes.core.progress import MAX_TRIES, Exercises, Try
from ..classes.core.text_store import TextStore
from ..classes.server.stored_files import attempt
from .kept_texts import set_aside

ANSWERS = "answers"  # the folder of the tries' texts


class PageTries:
    """The tries of a seat at exercises. The first try at each exercise has number 1."""

    def __init__(self, seat: str, texts: TextStore, exercises: Exercises, lost: list[str]) -> None:
        """exercises: receive the results of tries; lost: receives a sentence for each damaged try"""
        self._seat, self._texts, self._exercises, self._lost = seat, texts, exercises, lost

    def restore(self) -> None:
        """Take up the saved tries. A damaged try, or one that is missing between others, counts as a try in which no case passes."""
        for name in self._exercises.by_name:
            files = {file for file, _ in self._texts.files(f"{ANSWERS}/{self._seat}.{name}.*.json")}
            number = next((number for number in range(MAX_TRIES, 0, -1) if self._file(name, number) in files), 0)
            for each in range(1, number + 1):
                self._exercises.restore(self._seat, name, self.read(name, each))

    def read(self, name: str, number: int) -> Try:
        """Return a saved try at an exercise. If it is damaged or missing, return a try in which no case passes."""
        file = self._file(name, number)
        try:
            return attempt(**json.loads(self._texts.read_text(file)))
        except (ValueError, TypeError, RecursionError):
            set_aside(self._texts, file)
            self._lost.append(f"try {number} at {name} is damaged, and counts as one in which nothing passes")
            return attempt()

    def add(self, name: str, done: Try) -> None:
        """Take up the result of a check, and save it if it counts as a try."""
        if self._exercises.take(self._seat, name, done):
            number = len(self._exercises.progress(self._seat, name).tries)
            self._texts.write_text(self._file(name, number), json.dumps(done))

    def join(self, name: str, other: TextStore) -> None:
        """Add the tries at an exercise that another tab has saved and this page doesn't have, and sort all tries by time.

        Damaged tries of the other tab are set aside. name: the exercise; other: the texts that the other tab has changed
        """
        own = set(self._saved(self._texts, name).values())
        new = list[Try]()
        for file, text in self._saved(other, name).items():
            try:
                if text not in own:
                    new.append(attempt(**json.loads(text)))
            except (ValueError, TypeError, RecursionError):
                self._texts.write_text(f"damaged/{file.replace('/', '-')}", text)
        if not new:
            return
        count = len(self._exercises.progress(self._seat, name).tries)
        tries = [*(self.read(name, number) for number in range(1, count + 1)), *new][:MAX_TRIES]
        self._exercises.forget(self._seat, name)
        for done in sorted(tries, key=lambda each: each["time"]):
            self.add(name, self._exercises.with_case_names(name, done))

    def _saved(self, texts: TextStore, name: str) -> dict[str, str]:
        """Return the texts of the tries at an exercise in a store, by the texts' names in the store. name: the exercise"""
        files = {file for file, _ in texts.files(f"{ANSWERS}/{self._seat}.{name}.*.json")}
        numbered = (self._file(name, number) for number in range(1, MAX_TRIES + 1))
        return {file: texts.read_text(file) for file in numbered if file in files}

    def _file(self, name: str, number: int) -> str:
        return f"{ANSWERS}/{self._seat}.{name}.{number}.json"
