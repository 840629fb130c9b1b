"""The desk of a page. Its work is saved as texts, and images can be dropped on it."""

import base64
import contextlib
import pathlib
import re
from collections.abc import Callable, Mapping, Sequence
from functools import partial

from .. import LabError, mistakes_in
from ..checkpoints.checkpoint import checkpoint
from ..classes.core.languages import SourceText
from ..classes.core.messages import Hello, News, with_changes
from ..classes.core.history import History
from ..classes.core.progress import Start, Try
from ..classes.core.bad_request import BadRequest
from ..classes.core.requests import LinesRequest
from ..classes.core.shared_machine import LEAVING, Answers
from ..classes.core.text_store import TextStore
from ..compilers.compiled import program_of
from ..compilers.debug import image_of
from ..exercises.exercise import Exercise
from ..machine.answers import Refused, first_word, is_stop, read
from ..machine.lines import words_of
from ..machine.process import Vecmon
from ..machine.image import MARCH
from ..machine.program import image_refusal
from ..machine.session import Session, recorded_lines
from ..machine.target import check_flags, check_kind, target_warnings
from .desk import Desk
from .kept_texts import KeptTexts, set_aside
from .page_source import PageSource
from .page_tries import PageTries

MOST_LINES = 250_000  # largest number of the machine's lines that are executed again; a page has fewer, since checkpoints shorten them
SCRIPT, SET_UP = "A.script", "A.set_up"  # the machine's lines, and the number of first lines that set it up
STOP = "A.stop"  # the program's last stop when the first lines were made, unless something had changed after the stop
QUANTUM = "A.quantum"  # the ticks of a slice, if a class had another number than this page
IMAGES, IMAGE = "images", "A1.image"
IMAGE_BYTES, MOST_IMAGES = 1 << 20, 8
# An image's NAME for the program, but no option and no folder.
IMAGE_NAME = re.compile(r"(?!-|\.{1,2}$)[A-Za-z0-9._-]{1,32}")
# Limits of the program; an archive of a class may have images up to these.
MACHINE_IMAGE_BYTES, MACHINE_IMAGES = 4 << 20, 16
ROOM = pathlib.Path("/images")  # the folder of images, for machines and pyelftools
C_ADVICE = (
    "this page has no compiler; compile it elsewhere, with "
    f"`clang-19 --target=riscv64 {MARCH} -mabi=lp64 -g -O2 -nostdlib -static`, and drop the image here"
)

PutFile = Callable[[pathlib.Path, bytes], object]
"""Makes a file of this path and content, for Python and for machines."""


class PageHello(Hello):
    """The first message to a page. lost: sentences on what couldn't be read of the saved texts"""

    lost: list[str]


class PageDesk(Desk):
    """A desk whose sources, versions, tries, images and machine are restored when the page is opened again.

    lost: sentences about saved texts that couldn't be read
    """

    def __init__(
        self,
        program: Vecmon,
        texts: TextStore,
        exercises: Mapping[str, Exercise],
        starts: Mapping[str, list[Start]],
        put_file: PutFile,
    ) -> None:
        self._put_file, self.lost = put_file, list[str]()
        quantum = texts.read_text(QUANTUM)
        self._opening = partial(
            Session, program, quantum=int(quantum) if re.fullmatch("[1-9][0-9]{0,2}", quantum) else None
        )
        session = self._opening(self._kept_images(texts))
        self.source = PageSource("A1", texts, starts)
        super().__init__(program, session, texts, exercises, starts, source=self.source)
        self.source.take_unsaved()
        self._set_up, self._stops = 0, dict[str, str]()
        self._tries = PageTries(self.seat.name, texts, self.exercises, self.lost)
        self._tries.restore()
        self._restore_machine()
        if cause := self.student.restore():
            self.lost.append(cause)

    def keep(self) -> None:
        """Save everything that has changed. If lines would take long to execute again, a checkpoint's lines replace them."""
        self.student.save()
        if self.machine.session.weight >= 1 and not self.is_busy:
            with contextlib.suppress(LabError):  # if there is no checkpoint, the script is saved unchanged
                self._shorten()
        self.texts.write_text(SCRIPT, self.machine.session.script.decode("ascii"))
        self.texts.write_text(SET_UP, f"{self._set_up}")
        self.texts.write_text(STOP, self._stops.get(self.seat.digit, ""))

    def join(self, theirs: Mapping[str, Sequence[object] | None]) -> News:
        """Take up the sources, versions, tries and images that another tab has saved since this page opened.

        Returns a message with the changes.

        theirs: the texts that the other tab has changed, as KeptTexts takes them; None for a removed text
        """
        other = KeptTexts({name: entry for name, entry in theirs.items() if entry})
        self.source.join(other, [*self.exercises.by_name])
        for name in self.exercises.by_name:
            self._tries.join(name, other)
        self._join_files(other)
        return with_changes(News(kind="news"), self.news())

    def drop(self, name: str, content: bytes) -> News:
        """Load an image that was dropped on the page, or log why it can't be loaded. Return a message with the changes."""
        try:
            with mistakes_in(name):
                own = self._add_image(name, content)
            self.lines(LinesRequest([*LEAVING[self.seat.state["run"]], "enter", f"load {own}"]), [])
        except LabError as error:
            self.seat.log.add(f"!{error}")
        return with_changes(News(kind="news"), self.news())

    def lines(self, request: LinesRequest, done: Answers) -> Answers:
        """As any desk's `lines`. If an image was loaded, the seat gets its symbols, lines and variables."""
        looks = super().lines(request, done)
        words = [
            words_of(f"1 {line}") for line, answer in zip(request.do, done) if first_word(f"1 {answer[0]}") == "loaded"
        ]
        if words:
            self.texts.write_text(IMAGE, words[-1][1])
            self._take_image(words[-1][1])
        return looks

    def try_of(self, name: str, number: int) -> Try:
        """Return a saved try at an exercise. number: 1 for the first try. Raises BadRequest if there is none."""
        if not 1 <= number <= len(self.exercises.progress(self.seat.name, name).tries):
            raise BadRequest("there is no such answer")
        return self.exercises.with_case_names(name, self._tries.read(name, number))

    def add_try(self, name: str, done: Try) -> None:
        """Take up the result of a check, and save it if it counts as a try."""
        self._tries.add(name, done)

    def _kept_images(self, texts: TextStore) -> dict[str, pathlib.Path]:
        """Make files of the saved images in `texts`; return the paths of the files by the images' names. Damaged images are set aside."""
        images = dict[str, pathlib.Path]()
        for file in sorted(file for file, _ in texts.files(f"{IMAGES}/*")):
            name = file.removeprefix(f"{IMAGES}/")
            try:
                content = base64.b64decode(texts.read_text(file), validate=True)
                is_excess = len(content) > MACHINE_IMAGE_BYTES or len(images) == MACHINE_IMAGES
                if is_excess or not IMAGE_NAME.fullmatch(name):
                    raise ValueError("no machine takes it")
            except ValueError:
                set_aside(texts, file)
                self.lost.append(f"the image {name} is damaged, so no machine loads it")
            else:
                self._put_file(ROOM / name, content)
                images[name] = ROOM / name
        return images

    def _add_image(self, file: str, content: bytes) -> str:
        """Add an image to those that the machine can load; return its name there. Raises LabError if the machine refuses it.

        file: the name of the dropped file; content: its bytes
        """
        name = re.sub(r"[^A-Za-z0-9._-]+", "-", pathlib.PurePath(file).name.removesuffix(".elf"))[-32:]
        name = name.lstrip("-.") or "image"
        session = self.machine.session
        if file.endswith(".c"):
            raise LabError(C_ADVICE)
        if not content.startswith(b"\x7fELF"):
            raise LabError("this is no ELF image, and the page loads no other files")
        if len(content) > IMAGE_BYTES:
            raise LabError(f"an image has at most {IMAGE_BYTES:,} bytes, and this one has more")
        if name not in session.images and len(session.images) >= MOST_IMAGES:
            raise LabError(
                f"the page keeps {MOST_IMAGES} images at most: export your work, and begin with a new machine"
            )
        path = ROOM / name
        self._put_file(path, content)
        check_kind(path)
        check_flags(path)
        target_warnings(path)
        with self._opening({name: path}) as trial:
            answer = read(trial.do_all(["1 enter", f"1 load {name}"])[1])
        if isinstance(answer, Refused):
            raise LabError(image_refusal(name, f"{answer}"))
        self._replace(self._opening({**session.images, name: path}), session.script)
        self.texts.write_text(f"{IMAGES}/{name}", base64.b64encode(content).decode("ascii"))
        return name

    def _replace(self, heir: Session, script: bytes) -> None:
        """Continue with another session, after it has executed a script. If this raises LabError, the desk continues with its old session.

        heir: the other session; script: the script that it executes first
        """
        try:
            for _ in heir.do_script(script):
                pass
        except LabError:
            heir.close()
            raise
        self.machine.session.close()
        self.machine.session = heir

    def _take_image(self, name: str) -> None:
        """Give the seat the symbols, lines and variables of an image."""
        try:
            with mistakes_in(name, ValueError, LabError):
                program = program_of(image_of(ROOM / name), (), IMAGE_BYTES)
        except LabError as error:
            self.seat.log.add(f"!{error}")
            return
        self.seat.loaded.take(SourceText(), program)
        self.seat.display.list_program(program)
        contents = (
            f"{len(program.labels)} symbols, {len(program.rows)} rows of lines, {len(program.variables)} variables"
        )
        self.seat.log.add(f"!The image {name} has {contents}.")

    def _shorten(self) -> None:
        """Replace the lines of the machine by those of a checkpoint. Raises LabError if there is none."""
        session = self.machine.session
        made = checkpoint(partial(self._opening, session.images), session.short_script, session.images)
        session.recorded.shorten(made, session.recorded.spent)
        heir = session.renewed()
        session.close()
        self.machine.session, self._set_up, self.seat.used = heir, heir.lines, 0
        self._stops = self.machine.seats.stops()

    def _restore_machine(self) -> None:
        """Execute the saved lines of the machine again."""
        text = self.texts.read_text(SCRIPT)
        script = recorded_lines(text.encode("ascii", "replace"))
        if len(script) < len(text):
            count = script.count(b"\n")
            set_aside(self.texts, SCRIPT)
            self.lost.append(f"the machine's lines are damaged behind line {count}")
        elif (count := script.count(b"\n")) > MOST_LINES:
            set_aside(self.texts, SCRIPT)
            self.lost.append(f"the machine has {count:,} lines, and only the first {MOST_LINES:,} are executed again")
            script = b"".join(script.splitlines(keepends=True)[:MOST_LINES])
        kept_count = self.texts.read_text(SET_UP)
        self._set_up = int(kept_count) if re.fullmatch("[0-9]{1,9}", kept_count) else 0
        kept_stop, digit = self.texts.read_text(STOP), self.seat.digit
        is_set_up = script.count(b"\n") >= self._set_up
        self._stops = {digit: kept_stop} if is_set_up and is_stop(f"{digit} {kept_stop}") else {}
        history, session = History(self._set_up, self._stops), self.machine.session
        try:
            for block in session.do_blocks(script):
                history.add(*block)
                self.machine.past.follow_restored(self._set_up, *block)
        except LabError as error:
            set_aside(self.texts, SCRIPT)
            self.lost.append(f"the machine's lines can't be executed again: {error}")
            session.close()
            self.machine.session, self._set_up, self._stops = self._opening(session.images), 0, {}
            return
        history.restore(self.machine.seats, session)
        if (image := self.texts.read_text(IMAGE)) in session.images and self.seat.state["run"] != "absent":
            self._take_image(image)

    def _join_files(self, other: TextStore) -> None:
        """Save another tab's images and damaged texts, unless this page has texts with the same names."""
        names = [name for pattern in (f"{IMAGES}/*", "damaged/*") for name, _ in other.files(pattern)]
        for name in names:
            if not self.texts.read_text(name):
                self.texts.write_text(name, other.read_text(name))
