"""Reports of grades for other programs: JUnit's XML, and the JSON of Gradescope's autograder."""

import json
import pathlib
import re
import xml.etree.ElementTree as ElementTree

from .exercise import Case, Exercise

Grades = list[tuple[pathlib.Path, list[str]]]
"""The answers, each with the reason why it fails, or "", for each case."""

_NO_XML = re.compile("[^\t\n\r -\ud7ff\ue000-\ufffd\U00010000-\U0010ffff]")  # a character that XML can't have


def reason_shown(case: Case, reason: str) -> str:
    """Return the reason why an answer fails in a case, as its author may see it: for a hidden case, only that the case fails."""
    return "fails" if case.is_hidden and reason else reason


def junit(exercise: Exercise, grades: Grades) -> str:
    """Return JUnit's XML: a suite for each answer, with a test for each case."""
    top = ElementTree.Element("testsuites", name=_fit(exercise.title))
    for path, outcomes in grades:
        numbers = {"tests": f"{len(outcomes)}", "failures": f"{len(outcomes) - outcomes.count('')}", "errors": "0"}
        suite = ElementTree.SubElement(top, "testsuite", numbers, name=_fit(f"{path}"))
        for case, reason in zip(exercise.cases, outcomes):
            test = ElementTree.SubElement(suite, "testcase", classname=_fit(f"{path}"), name=_fit(case.name))
            if reason:
                ElementTree.SubElement(test, "failure", message=_fit(reason_shown(case, reason)))
    ElementTree.indent(top)
    text: str = ElementTree.tostring(top, "unicode")
    return f"<?xml version='1.0' encoding='utf-8'?>\n{text}\n"


def gradescope(exercise: Exercise, outcomes: list[str]) -> str:
    """Return the JSON for Gradescope's autograder about one answer, with a point for each case. Hidden cases aren't shown."""
    tests = [
        {
            "name": case.name,
            "score": int(not reason),
            "max_score": 1,
            "status": "failed" if reason else "passed",
            "output": reason_shown(case, reason),
            "visibility": "hidden" if case.is_hidden else "visible",
        }
        for case, reason in zip(exercise.cases, outcomes)
    ]
    return json.dumps({"output": exercise.title, "tests": tests}, indent=1) + "\n"


def _fit(text: str) -> str:
    """Return a text without characters that XML can't have."""
    return _NO_XML.sub("?", text)
