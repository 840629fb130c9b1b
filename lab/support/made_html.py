"""What is on pages that Python writes as HTML."""

import html
import re

LINK = re.compile(r'<a href="(\w+)\.html">(.*?)</a>')
STRIP = re.compile(r'<span class="strip"[^>]*>(.*?</span>)</span>')
CELL = re.compile(r'<span(?: class="(\w+)")?>(-?\w+)</span>')


def links_in(page: str) -> list[tuple[str, str]]:
    """The links to lessons in the same folder: the name of each without a suffix, and its title."""
    return [(name, html.unescape(title)) for name, title in LINK.findall(page)]


def strips_in(page: str) -> list[list[tuple[str, str]]]:
    """The cells of each strip: their digits and their forms."""
    return [[(digits, kind) for kind, digits in CELL.findall(strip)] for strip in STRIP.findall(page)]
