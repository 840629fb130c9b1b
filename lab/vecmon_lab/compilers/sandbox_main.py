"""The program in the sandbox: it compiles the source on standard input, and prints messages and the image as JSON.

`sandbox_main COMPILER CHOICE [answer | PATH]` runs in an empty folder. `answer` is for an answer to an exercise; PATH is the name of
the source in debug data. The JSON object has `messages`, `image` if there is one (`debug.py`), and `failure` if the compiler failed for
a reason outside the source.
"""

import importlib
import json
import os
import pathlib
import re
import resource
import signal
import sys
from collections.abc import Collection, Sequence
from subprocess import DEVNULL, PIPE, Popen
from typing import NamedTuple

from .compiler import ASSEMBLER_SOURCE, C_SOURCE, FUNCTION, IMAGE, OWN_SOURCES, PREPROCESSED_SUFFIX, Compiler, source_of
from .debug import MESSAGE_LETTERS, MAX_MESSAGES, Image, image_of, missing_start_code
from .failures import without_folders
from .hints import undefined_reference, with_advice

COMPLAINT_BYTES = 1 << 16
CPU_SECONDS, MEMORY_BYTES, FILE_BYTES = 10, 512 << 20, 32 << 20
LIMITS = {
    resource.RLIMIT_CPU: (CPU_SECONDS, CPU_SECONDS + 1),  # the signal SIGXCPU precedes SIGKILL
    resource.RLIMIT_AS: (MEMORY_BYTES, MEMORY_BYTES),
    resource.RLIMIT_FSIZE: (FILE_BYTES, FILE_BYTES),
    resource.RLIMIT_NOFILE: (64, 64),
    resource.RLIMIT_CORE: (0, 0),
}
CRASHED = "that is a fault of the compiler, which another form of the source may avoid"
MEMORY = f"it took more than {MEMORY_BYTES >> 20} MB of memory"
MARKABLE = re.compile(r"[\w.+-]+", re.ASCII)  # matches file names that line markers and messages can have
MISSING_MEMORY = [with_advice(f"undefined symbol: {name}") for name in ("memmove", "memcmp")]
"""Messages after which the source is compiled again with the runtime's memory.c."""

OWN_BEGIN = re.compile(rb"\bvoid\s+_start\s*\(")  # the start of a source that needs no runtime

_MESSAGE = re.compile(
    r"(?:(<inline asm>|[^:\s]+):(\d+):(?:(\d+):)? )?(?:[^:\s]+: )?(fatal error|[Ee]rror|[Ww]arning): (.*)"
)
_NO_MEMORY = re.compile("out of memory|bad_alloc|[Cc]annot allocate memory|virtual memory exhausted|memory exhausted")
_NO_ROOM = re.compile("[Ff]ile too large|[Ff]ile size limit|No space left|[Qq]uota exceeded")
_SIGNAL = re.compile("unable to execute command: (.*)")  # matches clang's report of a crash
_CRASH = re.compile("internal compiler error|PLEASE submit a bug report|due to signal")


class Failure(Exception):
    """The compiler failed for a reason outside the source."""


class Diagnostic(NamedTuple):
    """A compiler's message at a place in the source; line 0 if it is at no line."""

    line: int
    column: int
    is_error: bool
    text: str


def read_messages(errors: str, own: Collection[str] = OWN_SOURCES) -> list[Diagnostic]:
    """Parse the messages of a compiler and its linker, and remove paths of this system.

    errors: their standard error; own: the names under which messages may show the source
    """
    messages = []
    for line in errors.split("\n"):
        if reference := undefined_reference(line.strip()):
            file, at, symbol = reference
            place = (at, 1) if at and file in OWN_SOURCES else (0, 0)
            messages.append(Diagnostic(*place, True, with_advice(f"undefined symbol: {symbol}")))
        if found := _MESSAGE.fullmatch(line.strip()):
            file, number, column, kind, text = found.groups()
            if text.startswith("linker command failed"):  # earlier messages show the cause
                continue
            is_own = file in own
            text = text if is_own or not file else f"{file}:{number}: {text}"
            place = (int(number), int(column or 1)) if is_own else (0, 0)
            text = with_advice(without_folders(text)[:MESSAGE_LETTERS])
            messages.append(Diagnostic(*place, kind.lower() != "warning", text))
    return list(dict.fromkeys(messages))[:MAX_MESSAGES]


def compile_source(command: Sequence[str], own: Collection[str] = OWN_SOURCES) -> list[Diagnostic]:
    """Compile the source of this folder; return the compiler's messages. Raises Failure.

    own: the names of the source, as in `read_messages`
    """
    try:
        with Popen(command, stdin=DEVNULL, stdout=DEVNULL, stderr=PIPE) as child:
            assert child.stderr
            importlib.import_module("elftools.elf.elffile")  # imported while the compiler runs, for the image
            stderr = child.stderr.read(COMPLAINT_BYTES).decode("utf-8", "replace")
            child.stderr.close()  # a compiler that prints more messages ends here
            status = child.wait()
    except ImportError as error:
        raise Failure(f"Python's package pyelftools can't be imported ({error})") from error
    except OSError as error:
        raise Failure(f"{command[0]} can't be started: {error.strerror}") from error
    if status == 127 and "error while loading shared libraries" in stderr:
        raise Failure(f"{command[0]} can't be started: {stderr.strip()[:MESSAGE_LETTERS]}")
    messages = read_messages(stderr, own)
    if not status:
        return messages
    usage = resource.getrusage(resource.RUSAGE_CHILDREN)
    ending = ending_of(status, stderr, usage.ru_utime + usage.ru_stime)
    if ending:
        return [Diagnostic(0, 0, True, ending), *(message for message in messages if message.line)]
    if not any(message.is_error for message in messages):
        messages.append(Diagnostic(0, 0, True, f"the compiler ended with status {status} and no message"))
    return messages


def ending_of(status: int, stderr: str, seconds: float) -> str:
    """Return why a compiler ended without an image; "" if its messages show the reason. Raises Failure.

    status: the exit status, negative for a signal; stderr: the start of standard error; seconds: the processor time
    """
    if seconds > 0.95 * CPU_SECONDS:
        return f"the compiler was stopped: it took more than {CPU_SECONDS} s of processor time"
    if _NO_MEMORY.search(stderr):
        return f"the compiler was stopped: {MEMORY}"
    if status == -signal.SIGXFSZ or _NO_ROOM.search(stderr):
        return f"the compiler was stopped: it wrote a file of more than {FILE_BYTES >> 20} MB"
    if len(stderr) >= COMPLAINT_BYTES:
        return f"the compiler was stopped: it printed more than {COMPLAINT_BYTES >> 10} KB of messages"
    if status == -signal.SIGKILL:
        raise Failure("the compiler was killed from outside (SIGKILL), as by a system that has no memory left")
    if status < 0:
        return f"the compiler crashed ({signal.strsignal(-status)}): {CRASHED}"
    if crash := _SIGNAL.search(stderr):
        return f"the compiler crashed ({crash[1]}): {CRASHED}"
    if _CRASH.search(stderr):
        return f"the compiler crashed (internal compiler error): {CRASHED}"
    return ""


def compiled(compiler: Compiler, choice: int, is_answer: bool, named: str) -> tuple[list[Diagnostic], Image | None]:
    """Compile the source on standard input. Return the messages, and the image (None if there are errors). Raises Failure.

    choice: the number of the options; is_answer: whether the source answers an exercise; named: its path in debug data, or ""
    """
    text, source = sys.stdin.buffer.read(), source_of(choice)
    marker = line_marker(named) if source == ASSEMBLER_SOURCE else ""
    pathlib.Path(source).write_bytes(marker.encode("ascii") + text)
    is_alone = not is_answer and OWN_BEGIN.search(text) is not None
    own = (*OWN_SOURCES, pathlib.PurePath(named).name) if marker else OWN_SOURCES
    messages, image = compile_source(compiler.words(choice, is_answer, is_alone, named), own), None
    if source == C_SOURCE and not is_alone and any(message.text in MISSING_MEMORY for message in messages):
        messages = compile_source(compiler.words(choice, is_answer, is_alone, named, has_memory=True), own)
    try:
        if not any(message.is_error for message in messages):
            image = image_of(pathlib.Path(IMAGE))
            missing = missing_start_code(pathlib.Path(IMAGE)) if source == C_SOURCE and not is_alone else []
            messages += [Diagnostic(0, 0, True, text) for text in missing]
            if is_answer and image["symbols"].get(FUNCTION) != image["entry"]:
                messages.append(
                    Diagnostic(0, 0, True, f"the source has no function `{FUNCTION}`, which each case calls")
                )
    except (ValueError, OSError) as error:
        messages.append(Diagnostic(0, 0, True, f"the image can't be read: {error}"))
    return messages, image


def line_marker(named: str) -> str:
    """Return a line to put before an assembler source, which sets its name in messages and debug data; "" if the name can't be written
    there.
    """
    name = pathlib.PurePath(named).name
    form = "#line" if name.endswith(PREPROCESSED_SUFFIX) else "#"  # for the preprocessor, or for the assembler
    return f'{form} 1 "{name}"\n' if MARKABLE.fullmatch(name) else ""


def main() -> None:
    """Compile the source, and print messages, the image and a failure as JSON."""
    os.nice(10)  # machines that students step have priority
    for limit, most in LIMITS.items():
        resource.setrlimit(limit, most)
    signal.signal(signal.SIGXCPU, _stop)
    is_answer = sys.argv[3:] == [FUNCTION]
    named = "" if is_answer else "".join(sys.argv[3:])
    reply: dict[str, object] = {"messages": [], "image": None}
    try:
        messages, image = compiled(Compiler(sys.argv[1]), int(sys.argv[2]), is_answer, named)
        reply |= {"messages": messages, "image": image}
    except Failure as error:
        reply["failure"] = f"{error}"
    except MemoryError:
        reply["messages"] = [Diagnostic(0, 0, True, f"the image can't be read: {MEMORY}")]
    except RecursionError:
        reply["messages"] = [Diagnostic(0, 0, True, "the image can't be read: its debug data nests too deeply")]
    sys.stdout.write(json.dumps(reply))


def _stop(number: int, frame: object) -> None:
    """End this process with a message: reading the image has taken too much processor time."""
    text = f"the image can't be read: that takes more than {CPU_SECONDS} s of processor time"
    os.write(1, json.dumps({"messages": [Diagnostic(0, 0, True, text)], "image": None}).encode("ascii"))
    os._exit(0)


if __name__ == "__main__":
    main()
