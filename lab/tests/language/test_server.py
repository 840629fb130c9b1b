"""The language server over a pipe, as editors use it: each request on good, wrong and half-typed sources."""

import json
import os
import pathlib
import random
from typing import Any

import pytest

from support.language_client import URI, Editor, marked
from support.places import EXAMPLES
from vecmon_lab.assembler import line as line_module
from vecmon_lab.assembler import plain, pseudo
from vecmon_lab.assembler.assembly import FileReader
from vecmon_lab.assembler.source import Program, read_source
from vecmon_lab.assembler.trial import Trial
from vecmon_lab.language import analysis
from vecmon_lab.language.documents import Document
from vecmon_lab.language.positions import changed, index_at, lines_of, range_of, units

GOOD = """\
_start: li a0, 13
        la a1, numbers          # the array
        vsetvli t0, a0, e16, m2, ta, ma
        vle16.v v8, (a1)
        vwadd.vv v12, v8, v8
        vsetvli x0, x0, e32, m4, ta, ma
loop:   vadd.vv v12, v12, v12
        addi a0, a0, -1
        bnez a0, loop
        call sums
        ebreak
sums:   vsetivli x0, 4, e8, m1, ta, ma
        beqz a0, 1f
        vsetivli x0, 4, e64, m1, ta, ma
1:      ret
        .data
numbers: .half 1, 2, 3
"""
WRONG = """\
        vadd.vv v1, v2, v3
        vsetvli t0, a0, e64, m2, ta, mu
        vadd.vv v3, v8, v8
        vwadd.vv v12, v8, v8
        vmul.vv v8, v8, v8
        vrgather.vv v8, v8, v10
        vad.vv v2, v2, v4
        vmv.v.i v4, 77
        fadd.s fa0, fa1, fa2
        bnez a0, lopp
loop:   csrr t0, mhartid
        vsetvli t0, a0, e8, m1
"""


def at(text: str, word: str, offset: int = 1) -> tuple[int, int]:
    """Return the line and the character at which a word starts in a text, or some characters after that."""
    before = text[: text.index(word)]
    return before.count("\n"), len(before) - before.rfind("\n") - 1 + offset


def names(items: list[dict[str, Any]]) -> list[str]:
    return [each["label"] for each in items]


@pytest.mark.by_command("lsp")
def test_good_source() -> None:
    """No diagnostics; the hints are worked out by hand for VLEN 256: e16,m2 has 32 elements, and v8 takes 2 registers."""
    with Editor() as editor:
        assert editor.set_text(GOOD) == []
        assert editor.hints() == {
            2: "vl 13, VLMAX 32",
            4: "vd v12–v15 (e32), vs2 v8–v9 (e16), vs1 v8–v9 (e16)",
            5: "vl 13, VLMAX 32",
            11: "here e32,m4,ta,ma; vl 4, VLMAX 32",
            13: "vl 4, VLMAX 4",
            14: "type differs by the way here: e8,m1,ta,ma or e64,m1,ta,ma",
        }
        first = editor.whole("textDocument/inlayHint", range=range_of(GOOD.split("\n"), 3, 1, 8))
        assert [each["position"] for each in first] == [{"line": 2, "character": 39}]


def test_wrong_source() -> None:
    """Each mistake is reported at its token, with its fixes; an instruction of other machines has a hint."""
    with Editor() as editor:
        found = editor.set_text(WRONG)
        lines = [(line, word) for line, word, _ in marked(WRONG, found)]
        assert lines == [
            (0, "vadd.vv"),
            (2, "vadd.vv"),
            (3, "vwadd.vv"),
            (5, "vrgather.vv"),
            (6, "vad.vv"),
            (7, "77"),
            (8, "fadd.s"),
            (9, "lopp"),
            (10, "mhartid"),
            (11, "m1"),
        ]
        assert [each["severity"] for each in found] == [1, 1, 1, 1, 1, 1, 4, 1, 4, 2]
        assert [each.get("code") for each in found] == [*["illegal"] * 4, None, "E15", None, None, None, None]
        messages = [each["message"] for each in found]
        assert messages[0].startswith("illegal under vill: ") and messages[1].startswith("illegal under e64,m2,ta,mu: ")
        assert "v3" in messages[1] and "128" in messages[2]
        titles = [names_of_fixes(editor, each["range"]) for each in found]
        assert titles[0] == ["insert vsetvli t0, a0, e32, m1, ta, ma"]
        assert titles[4][0] == "replace by vadd.vv" and titles[7] == ["replace by loop"]
        assert titles[1] == titles[2] == titles[5] == titles[6] == []


def names_of_fixes(editor: Editor, span: object) -> list[str]:
    actions = editor.whole("textDocument/codeAction", range=span, context={"diagnostics": []})
    return [each["title"] for each in actions]


@pytest.mark.parametrize(
    "line, marked_word, message",
    [
        ("vsetvli t0, a0, e64, mf2, ta, ma", "vsetvli", "e64,mf2,ta,ma isn't supported"),
        ("vsetvli x0, x0, e16, m2, ta, ma\n vsetvli x0, x0, e8, m2, ta, ma", "vsetvli", "with x0 twice vl stays"),
        ("li a1, 0x104\n vsetvl t0, a0, a1", "vsetvl", "no supported type"),
        ("vsetivli x0, 4, 0x25", "vsetivli", "no supported type"),
    ],
)
def test_types_that_are_vill(line: str, marked_word: str, message: str) -> None:
    """By V 1.0, sections 3.4.1, 3.4.2 and 6.2; a type with the same VLMAX is no problem."""
    text = f"_start: vsetivli x0, 4, e8, m1, ta, ma\n {line}\n"
    with Editor() as editor:
        found = editor.set_text(text)
        ((number, word, shown),) = marked(text, found)
        assert (number, word, found[0]["severity"]) == (text.count("\n") - 1, marked_word, 2)
        assert shown.startswith("sets vill: ") and message in shown
        assert editor.hints()[number] == "vill, vl 0"


def test_fixes_cure() -> None:
    """The preferred fix of each diagnostic that has one, in the source, removes the diagnostic."""
    with Editor() as editor:
        text, number = WRONG, 0
        while True:
            found = editor.set_text(text)
            whole = {"start": {"line": 0, "character": 0}, "end": {"line": 99, "character": 0}}
            context: dict[str, object] = {"diagnostics": found}
            actions = editor.whole("textDocument/codeAction", range=whole, context=context)
            preferred = [each for each in actions if each.get("isPreferred")]
            if not preferred:
                break
            (edit,) = preferred[0]["edit"]["changes"][URI]
            lines = changed(text.split("\n"), {"range": edit["range"], "text": edit["newText"]})
            text, number = "\n".join(lines), number + 1
        assert number == 4
        assert "bnez a0, loop" in text and "vadd.vv v2, v2, v4" in text and text.count("vsetvli") == 3


def test_hover() -> None:
    with Editor() as editor:
        editor.set_text(GOOD)
        text = editor.at("textDocument/hover", *at(GOOD, "vwadd"))["contents"]["value"]
        assert "here: vwadd.vv v12, v8, v8  [c6842657]" in text
        assert "vtype: e16,m2,ta,ma; vl: 13" in text
        assert "vd destination: v12–v15 (e32), EEW 32, EMUL 4" in text
        assert "vd[i] = signed(vs2[i]) + signed(vs1[i])" in text and "__riscv_vwadd_vv_i64m2" in text
        assert "section 11.2" in text and "Illegal if the type is vill; 2*SEW is above 64" in text
        word = editor.at("textDocument/hover", *at(GOOD, "loop\n"))["contents"]["value"]
        assert "loop: 0x1001c, line 7" in word and "e32,m4,ta,ma" in word
        for name, part in [
            ("ta, ma", "Tail agnostic"),
            ("a0", "a0 is x10"),
            ("v12", "vd destination: v12–v15 (e32), EEW 32, EMUL 4"),
            ("v8, v8", "v8: a vector register of 256 bits"),
            ("e16", "Elements of 16 bits"),
            (".half", "numbers of 2 bytes"),
            ("call", "call label"),
        ]:
            assert part in editor.at("textDocument/hover", *at(GOOD, name))["contents"]["value"], name
        assert editor.at("textDocument/hover", *at(GOOD, "# the array", 4)) is None
        assert editor.at("textDocument/hover", 500, 3) is None
    with Editor(markdown=False) as editor:
        editor.set_text(GOOD)
        contents = editor.at("textDocument/hover", *at(GOOD, "vwadd"))["contents"]
        assert contents["kind"] == "plaintext" and "```" not in contents["value"]


def test_completion() -> None:
    """Completions at the caret of half-typed lines; under e32,m2 register groups begin at even registers."""
    head, tail = "_start: vsetivli x0, 4, e32, m2, ta, ma\n.equ COUNT, 4\n", "\nfoo: ret\n"
    with Editor() as editor:

        def completed(line: str) -> list[dict[str, Any]]:
            editor.set_text(f"{head}{line}{tail}")
            return list(editor.at("textDocument/completion", 2, len(line)))

        even = [f"v{number}" for number in range(0, 32, 2)]
        assert names(completed("  vadd.vv v1, ")) == even
        assert names(completed("  vadd.vv v")) == even
        assert names(completed("  vwadd.vv ")) == even[::2]
        assert names(completed("  vwadd.vv v4, ")) == even
        assert names(completed("  vse64.v ")) == even[::2]
        assert names(completed("  vadd.vv v2, v4, v6, ")) == ["v0.t"]
        assert names(completed("  vsetvli t0, a0, ")) == ["e8", "e16", "e32", "e64"]
        assert names(completed("  vsetvli t0, a0, e8, mf8, t")) == ["ta", "tu"]
        assert names(completed("  csrr t0, "))[:3] == ["vstart", "vxsat", "vxrm"]
        assert names(completed("  vle32.v v2, "))[0] == "(a0)" and names(completed("  lw a0, 4("))[0] == "a0"
        assert names(completed("  add a0, "))[:2] == ["a0", "a1"]
        assert names(completed("  bnez a0, ")) == ["_start", "foo"] == names(completed("  la a0, "))
        assert names(completed("  li a0, ")) == ["COUNT"]
        assert {"vwmul.vv", "vwmul.vx"} <= {*names(completed("  vwm"))}
        assert ".zero" in names(completed("  .z")) and "vadd.vv" in names(completed("here: v"))
        assert completed("  # vad") == completed('  .ascii "vad') == completed("  nop ") == []
        (item,) = [each for each in completed("  vwmul.v") if each["label"] == "vwmul.vv"]
        assert item["textEdit"] == {"newText": "vwmul.vv", "range": range_of(["  vwmul.v"] * 3, 3, 3, 7)}
        resolved = editor.ask("completionItem/resolve", **item)
        assert "vd[i] = signed(vs2[i]) * signed(vs1[i])" in resolved["documentation"]


def test_navigation() -> None:
    text = "a: j 1f\n1: j 1b\n1: la a0, a\n.globl a\n.equ N, 2\nli a1, N + 1 # N\n.macro twice x\nnop\n.endm\ntwice a\n#> a = i32 5\n"
    with Editor() as editor:
        editor.set_text(text)
        place = editor.at("textDocument/definition", 2, 10)
        assert [(each["uri"], each["range"]["start"]) for each in place] == [(URI, {"line": 0, "character": 0})]
        assert [each["range"]["start"]["line"] for each in editor.at("textDocument/definition", 0, 6)] == [1]
        assert [each["range"]["start"]["line"] for each in editor.at("textDocument/definition", 1, 6)] == [1]
        assert [each["range"]["start"]["line"] for each in editor.at("textDocument/definition", 9, 2)] == [6]
        everywhere = {"includeDeclaration": True}
        found = editor.at("textDocument/references", 0, 0, context=everywhere)
        assert [each["range"]["start"]["line"] for each in found] == [0, 2, 3, 9, 10]
        assert len(editor.at("textDocument/references", 0, 0, context={"includeDeclaration": False})) == 4
        marks = editor.at("textDocument/documentHighlight", 5, 7)
        assert [(each["range"]["start"]["line"], each["kind"]) for each in marks] == [(4, 3), (5, 2)]
        symbols = editor.whole("textDocument/documentSymbol")
        assert [(each["name"], each["kind"]) for each in symbols] == [("a", 12), ("N", 14), ("twice", 6)]
        assert editor.at("textDocument/prepareRename", 5, 7)["start"] == {"line": 5, "character": 7}
        edits = editor.at("textDocument/rename", 2, 10, newName="begin")["changes"][URI]
        lines = text.split("\n")
        for edit in sorted(edits, key=lambda each: -int(each["range"]["start"]["character"])):
            lines = changed(lines, {"range": edit["range"], "text": edit["newText"]})
        assert editor.set_text("\n".join(lines)) == []
        assert lines[0] == "begin: j 1f" and lines[9:11] == ["twice begin", "#> begin = i32 5"]
        for name in ("vadd.vv", "a0", "two words", "N", "9", ".word", ""):
            params = {"textDocument": {"uri": URI}, "position": {"line": 0, "character": 0}, "newName": name}
            assert editor.reply("textDocument/rename", params)["error"]["code"] == -32803, name
        params = {"textDocument": {"uri": URI}, "position": {"line": 0, "character": 9}}
        assert editor.reply("textDocument/prepareRename", params)["error"]["code"] == -32803
        assert editor.at("textDocument/definition", 1, 3) == []


def test_changes_at_once() -> None:
    """Changes of ranges that come together are one text in the end, and only that one has diagnostics."""
    draws = random.Random(3)
    lines, states = lines_of(GOOD), 0
    with Editor() as editor:
        editor.set_text(GOOD)
        for _ in range(40):
            changes = []
            for _ in range(draws.randrange(1, 4)):
                first = draws.randrange(len(lines))
                last = min(first + draws.randrange(3), len(lines) - 1)
                start, end = draws.randrange(len(lines[first]) + 1), draws.randrange(len(lines[last]) + 1)
                if first == last:
                    start, end = min(start, end), max(start, end)
                text = draws.choice(["", "x", "\n", "\r\n", "vadd.vv v1, v2, v3\n", "é𝄞", "loop:"])
                text_lines = lines_of(text)
                a, b = units(lines[first][:start]), units(lines[last][:end])
                changes.append((first, a, last, b, text))
                head, rest = lines[first][:start], lines[last][end:]
                new = [*text_lines]
                new[0] = head + new[0]
                new[-1] += rest
                lines[first : last + 1] = new
            editor.change(*changes)
        states = sum(note["method"] == "textDocument/publishDiagnostics" for note in editor.notes)
        found = editor.diagnostics()
        assert states < 40
        editor.tell("textDocument/didClose", textDocument={"uri": URI})
        editor.version = 0
        assert editor.set_text("\n".join(lines)) == found


@pytest.mark.parametrize("text", [GOOD, WRONG])
def test_every_half_of_a_source(text: str) -> None:
    """Each request is answered while a source is typed, character by character, and no answer is an error."""
    everything = range_of(text.split("\n"), 1, 1, 1) | {"end": {"line": 99, "character": 0}}
    with Editor() as editor:
        editor.set_text("")
        for end in range(0, len(text), 7):
            part = text[:end]
            editor.version += 1
            document = {"uri": URI, "version": editor.version}
            editor.tell("textDocument/didChange", textDocument=document, contentChanges=[{"text": part}])
            place = at(part + "\0", "\0", 0)
            for method in ("hover", "completion", "definition", "documentHighlight"):
                editor.at(f"textDocument/{method}", *place)
            editor.at("textDocument/references", *place, context={"includeDeclaration": True})
            editor.whole("textDocument/documentSymbol")
            editor.whole("textDocument/inlayHint", range=everything)
            editor.whole("textDocument/codeAction", range=everything, context={"diagnostics": []})


def test_other_sources(tmp_path: pathlib.Path) -> None:
    """A file that is included is read from the source's folder; a source for the preprocessor is left to it, with a hint."""
    (tmp_path / "part.s").write_text("vsetivli x0, 1, e8, m1, ta, ma\n")
    uri = (tmp_path / "whole source.s").as_uri()
    with Editor() as editor:
        document: dict[str, object] = {
            "uri": uri,
            "version": 0,
            "languageId": "asm",
            "text": '.include "part.s"\nvadd.vv v1, v2, v3\n',
        }
        editor.tell("textDocument/didOpen", textDocument=document)
        assert editor.diagnostics() == []
        with_preprocessor = document | {"uri": uri.replace(".s", ".S"), "text": "nop\n#define A 5\nli a0, A\n"}
        editor.tell("textDocument/didOpen", textDocument=with_preprocessor)
        (found,) = editor.diagnostics()
        assert (found["severity"], found["range"]["start"]["line"]) == (4, 1)
        too_much = {
            "x" * 300_001: "more than 300,000 characters",
            "vad\n" * 5_000: "more than 5,000 lines or statements",
            "vad;" * 5_000: "more than 5,000 lines or statements",
            ".rept 6000\nvad\n.endr\n": "macros and repetitions make too many statements",
        }
        for text, message in too_much.items():
            editor.tell("textDocument/didOpen", textDocument=document | {"uri": "untitled:1", "text": text})
            (found,) = editor.diagnostics()
            assert found["severity"] == 4 and message in found["message"]


def test_text_that_fails(program: pathlib.Path, monkeypatch: pytest.MonkeyPatch) -> None:
    """A text at which the lab fails has a hint that says so, and the next text is checked."""

    def fails(text: str, files: FileReader | None = None, most_made: int = 0) -> Program:
        if "vmul" in text:
            raise IndexError("planted")
        return read_source(text, files=files, most_made=most_made)

    monkeypatch.setattr(analysis, "read_source", fails)
    with Trial(program) as trial:
        document = Document("untitled:1", "vmul.vv v1, v2, v3\n", 1, trial)
        (found,) = [each.diagnostic for each in document.findings]
        assert found["message"] == "this source can't be checked: IndexError: planted" and found["severity"] == 4
        document.change([{"text": "vadd.vv v1, v2, v3\n"}], 2)
        assert [each.diagnostic["severity"] for each in document.findings] == [1]


def test_utf_16() -> None:
    """Places count units of UTF-16: a clef takes two."""
    text = '.ascii "𝄞é"; vadd.vv v1, v2, v3\n'
    with Editor() as editor:
        (found,) = editor.set_text(f".text\n{text}")
        assert (found["range"]["start"], found["range"]["end"]["character"]) == ({"line": 1, "character": 14}, 21)
        assert "vadd.vv" in editor.at("textDocument/hover", 1, 15)["contents"]["value"]
    assert [units(each) for each in ("", "a", "é", "𝄞")] == [0, 1, 1, 2]
    assert [index_at("a𝄞b", each) for each in (0, 1, 2, 3, 4, 9)] == [0, 1, 2, 2, 3, 3]


def test_bad_messages() -> None:
    """Each bad request gets its error; the server goes on."""
    with Editor(initialize=False) as editor:
        assert editor.reply("textDocument/hover", {})["error"]["code"] == -32002
        editor.ask("initialize", capabilities={})
        editor.set_text(GOOD)
        place: dict[str, object] = {"textDocument": {"uri": URI}}
        cases: list[tuple[str, object, int]] = [
            ("textDocument/unknown", {}, -32601),
            ("textDocument/hover", place, -32602),
            ("textDocument/hover", place | {"position": 5}, -32602),
            ("textDocument/hover", place | {"position": {"line": "a", "character": 0}}, -32602),
            ("textDocument/hover", [], -32602),
            ("textDocument/hover", {"textDocument": {"uri": "file:///other"}}, -32602),
            ("textDocument/inlayHint", place, -32602),
        ]
        for method, params, code in cases:
            answer = editor.reply(method, params)
            assert answer["error"]["code"] == code and "\n" not in answer["error"]["message"], (method, answer)
        for content, code in [(b"{", -32700), (b"\xff", -32700), (b"[]", -32600), (b'{"id":1,"method":5}', -32600)]:
            editor.write(b"Content-Length: %d\r\n\r\n%s" % (len(content), content))
            assert editor.receive()["error"]["code"] == code, content
        editor.tell("textDocument/didChange", textDocument={"uri": URI}, contentChanges=[{"text": ""}])
        editor.tell("$/cancelRequest", id=1)
        assert editor.whole("textDocument/documentSymbol")
        assert [note["method"] for note in editor.notes] == ["window/logMessage"]
        assert editor.whole("textDocument/documentSymbol")
        assert editor.ask("shutdown") is None
        assert editor.reply("textDocument/hover", {})["error"]["code"] == -32600
        editor.tell("exit")
        assert editor.ended() == (0, "")


def test_large_and_divided_messages() -> None:
    """Messages that come in parts, and several at once; a source of more than 250,000 characters."""
    with Editor() as editor:
        text = "        nop                                       # a comment\n" * 4500
        assert len(text) > 250_000 and editor.set_text(text) == []
        bodies = [json.dumps({"jsonrpc": "2.0", "id": number, "method": "none"}).encode() for number in range(900, 903)]
        data = b"".join(b"content-length:%d\r\nContent-Type: x\r\n\r\n%s" % (len(each), each) for each in bodies)
        for at_byte in range(len(data)):
            editor.write(data[at_byte : at_byte + 1])
        assert [editor.receive()["id"] for _ in bodies] == [900, 901, 902]


def test_head_without_length() -> None:
    with Editor() as editor:
        editor.write(b"Content-Type: text\r\n\r\n{}")
        status, errors = editor.ended()
        assert (
            status == 2 and errors.startswith("vecmon-lab: a message has no Content-Length") and errors.count("\n") == 1
        )


def test_client_that_goes_away() -> None:
    """With its input closed, before and in the middle of a message, or its output, the server ends without a traceback."""
    for data in (b"", b"Content-Le", b"Content-Length: 50\r\n\r\n{"):
        with Editor() as editor:
            editor.set_text(GOOD)
            editor.write(data)
            assert editor.process.stdin
            editor.process.stdin.close()
            editor.process.stdin = None
            assert editor.ended() == (1, "")
    with Editor() as editor:
        assert editor.process.stdout
        os.close(os.dup(editor.process.stdout.fileno()))
        editor.process.stdout.close()
        content = json.dumps({"jsonrpc": "2.0", "id": 5, "method": "textDocument/none"}).encode()
        editor.write(b"Content-Length: %d\r\n\r\n%s" % (len(content), content))
        assert editor.process.stderr
        errors = editor.process.stderr.read()
        assert (editor.process.wait(), errors) == (1, b"")
        editor.process.stdout = None


def test_examples_have_no_diagnostics() -> None:
    """The examples of the pages, but for the one that has a mistake on purpose. Commands of lessons are hints."""
    with Editor() as editor:
        for path in sorted(EXAMPLES.rglob("*.s")):
            found = [each for each in editor.set_text(path.read_text("utf-8")) if each["severity"] < 4]
            assert bool(found) == (path.name == "typo.s"), path


def test_lines_of_a_change_are_read_again_alone() -> None:
    """A change of a source of 2,000 lines divides only its line into tokens, also if lines after it get other numbers."""
    lines = [f"l{number}: vadd.vv v1, v2, v3" for number in range(2000)]
    read_source("\n".join(lines))
    for change in (
        ["l1000: vadd.vv v1, v2, v4"],
        ["l1000: vadd.vv v1, v2, v4", "vsll.vi v29, v30, 13  # in no other test"],
    ):
        before, tokens = plain._found.cache_info().misses, line_module._tokens_typed_here.cache_info().misses
        read = read_source("\n".join([*lines[:1000], *change, *lines[1001:]]))
        assert plain._found.cache_info().misses - before == 1
        assert line_module._tokens_typed_here.cache_info().misses - tokens == 1
        assert read.statements[-1].line == 1999 + len(change) and read.statements[-1].place(0)[0] == 1999 + len(change)


def test_lines_that_move_keep_what_is_known_of_them() -> None:
    """A line inserted above 1,000 others copies no plain instruction and compares no form of a pseudo-instruction again."""
    text = "\n".join(f"l{number}: vadd.vv v1, v2, v3\n bnez a0, l{number}" for number in range(500))
    first, compared = read_source(text), pseudo._form_of_pattern.cache_info().misses
    moved = read_source(f"\n{text}")
    assert pseudo._form_of_pattern.cache_info().misses == compared
    pairs = [*zip(first.statements, moved.statements)]
    assert all(before.offsets is after.offsets for before, after in pairs[::2])
    ends = [(before.place(len(before.text)), after.place(len(after.text))) for before, after in pairs]
    assert ends == [
        ((line, column), (line + 1, column))
        for number in range(500)
        for line, column in (
            (2 * number + 1, len(f"l{number}: vadd.vv v1, v2, v3") + 1),
            (2 * number + 2, 11 + len(f"l{number}")),
        )
    ]
