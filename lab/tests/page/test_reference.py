"""The explanations of names on a class's page, compared with the pages of the manual."""

import json
import re

from support.places import DOCS
from vecmon_lab.page.build.reference import reference, reference_text


def test_reference_lists_manual_entries() -> None:
    reply = reference()
    instructions = re.findall(r"^\| `([^`]+)` \| `", (DOCS / "INSTRUCTIONS.md").read_text("utf-8"), re.MULTILINE)
    assert [form for _, form, *_ in reply["Instructions"]] == [each for each in instructions if each[0] != "."]
    page = (DOCS / "COMMANDS.md").read_text("utf-8")
    rows = re.findall(r"^\| `([^`]+)` \| (.+?) \|", page, re.MULTILINE)
    commands = {form for _, form, _ in reply["Commands"]}
    assert len(commands) > 20 and commands <= {form for form, _ in rows}
    refusals = re.findall(r"^\| (E\d\d) \|", page.replace("`", ""), re.MULTILINE)
    assert [code for code, *_ in reply["Refusals"]] == refusals


def test_entry_starts_with_its_name() -> None:
    for entries in reference().values():
        assert entries and all(form == name or form.startswith(f"{name} ") for name, form, *_ in entries)
    pseudo = {form: does for _, form, does in reference()["Pseudo-instructions"]}
    assert pseudo["ret"] == "Returns from a function: jumps to the address in ra. `jalr x0, 0(x1)`"
    assert pseudo["vmsge.vx vd, vs2, rs1"].count(";") == 1
    expected = {name: does for name, _, does, *_ in reference()["Instructions"]}
    formula = "`vd[i] = vs2[i] + vs1[i]`"
    assert expected["vadd.vv"] == f"Adds the elements of vs1 to the elements of vs2; the sums wrap around. {formula}"
    sentence = "Adds the immediate to the elements of vs2; the sums wrap around."
    assert expected["vadd.vi"] == f"{sentence} {formula}, where vs1[i] is the immediate"
    assert all(expected.values())


def test_page_embeds_reference() -> None:
    assert "<" not in reference_text() and json.loads(reference_text()) == reference()


def test_terms_of_glossary_and_common_words_have_entries() -> None:
    terms = {name for name, *_ in reference()["Terms"]}
    glossary = (DOCS / "GLOSSARY.md").read_text("utf-8").partition("\n## Contracts")[0]
    rows = re.findall(r"^\| (?!term |---)([^|]+) \|", glossary, re.MULTILINE)
    listed = {re.sub(r" \(.*\)", "", name) for row in rows for name in row.split(", ")}
    of_definitions = {"world", "event", "schedule", "purge", "noninterference", "private machine"}
    assert len(listed) > 25 and listed - of_definitions - terms <= {"stopped", "running"}
    assert {"reduce", "stack", "load word", "shuffle", "tail elements"} <= terms


def test_term_leads_to_names() -> None:
    entries = {name: does for section in reference().values() for name, _, does, *_ in section}
    assert entries["shuffle"].endswith(" See `vrgather`, `vslideup`, `vslidedown`, `vcompress`.")
    assert entries["e16"] == "Elements of 16 bits, in vsetvli: a vector register has 16 of them."


def test_words_of_widths_and_moves_find_instructions() -> None:
    words = {name: " ".join(more) for name, _, _, *more in reference()["Instructions"]}
    expected = {"vwmulsu.vv": "widening", "vnsrl.wx": "narrowing", "vzext.vf4": "widening", "vredsum.vs": "reduce"}
    expected |= {"vwredsum.vs": "widening reduce", "vadd.vv": "", "vrgather.vv": "gather", "addi": "", "vle8.v": ""}
    assert {name: words[name] for name in expected} == expected
