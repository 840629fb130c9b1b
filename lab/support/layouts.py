"""The layout of a page at seven sizes: cut texts, controls out of reach, contrast, double ids, and the lines of the source in sight."""

from collections.abc import Mapping
from typing import TYPE_CHECKING, NamedTuple

from support.browser import CONTRAST, media

if TYPE_CHECKING:
    from selenium.webdriver import Chrome

LINES = 8  # of a source that are in sight at least
LINE = 20  # px of a line of source, where the reader's font size is 16 px


class Size(NamedTuple):
    """A window: its width and height in CSS pixels, whether it is touched, and the colour scheme."""

    width: int
    height: int
    touch: bool = False
    scheme: str = "light"


SIZES: Mapping[str, Size] = {
    "laptop": Size(1280, 800),
    "large laptop": Size(1440, 900),
    "screen": Size(1920, 1080),
    "tablet": Size(820, 1180, touch=True),
    "phone": Size(390, 844, touch=True),
    "laptop at 200 %": Size(640, 400),
    "dark": Size(1280, 800, scheme="dark"),
}

SEEN = """
const isSeen = (element) => element.checkVisibility({visibilityProperty: true}) && !element.closest(".unseen, .CodeMirror, .wires");
const seen = (selector) => [...document.querySelectorAll(selector)].filter(isSeen);
const name = (element) => `${element.id || element.className || element.tagName} ${element.textContent.trim().slice(0, 20)}`;
"""
# Texts that are cut, and boxes that scroll sideways, but those of sources and of the tables of profiles and listings.
CUT = """
const boxes = document.documentElement.scrollWidth > innerWidth ? [`page: ${document.documentElement.scrollWidth}`] : [];
for (const element of seen("body *:not(svg, option)")) {
  if (element.scrollWidth <= element.clientWidth + 1 || !element.clientWidth) continue;
  const overflow = getComputedStyle(element).overflowX;
  if (overflow === "visible" ? !element.matches(".lanes td, .lanes th, .registers *, .facts *") : element.matches(SIDEWAYS)) continue;
  boxes.push(`cut: ${name(element)}: ${element.scrollWidth} > ${element.clientWidth}`);
}
const pen = document.createElement("canvas").getContext("2d");
for (const list of seen("select")) {
  const { font, paddingLeft, paddingRight } = getComputedStyle(list);
  pen.font = font;
  const room = list.clientWidth - parseFloat(paddingLeft) - parseFloat(paddingRight);
  const text = list.selectedOptions[0]?.text ?? "";
  if (pen.measureText(text).width > room + 1) boxes.push(`cut: ${name(list)}: ${text}`);
}
return boxes;
""".replace(
    "SIDEWAYS", '"#listing, #listing .source, #written, .profile .scroll, pre"'
)
# Controls that are partly cut off, and controls and labels over another one.
UNREACHABLE = """
const faults = [], parts = [];
for (const element of seen("button, select, input, textarea, summary, a[href], label, [role=tab]")) {
  const { left, top, right, bottom } = element.getBoundingClientRect();
  const box = { left, top, right, bottom };
  for (let e = element.parentElement; e && e !== document.body; e = e.parentElement) {
    if (getComputedStyle(e).overflow === "visible") continue;
    const clip = e.getBoundingClientRect();
    const isCut = left < clip.left - 1 || right > clip.right + 1 || top < clip.top - 1 || bottom > clip.bottom + 1;
    const scrolls = /auto|scroll/.test(getComputedStyle(e).overflow);
    if (isCut && !scrolls) faults.push(`cut off: ${name(element)}`);
    for (const side of ["left", "top"]) box[side] = Math.max(box[side], clip[side]);
    for (const side of ["right", "bottom"]) box[side] = Math.min(box[side], clip[side]);
    if (scrolls) break;
  }
  if (box.right - box.left < 4 || box.bottom - box.top < 4) continue;
  parts.push({ element, box });
  const [x, y] = [(box.left + box.right) / 2, (box.top + box.bottom) / 2];
  const above = document.elementFromPoint(x, y);
  if (above && !element.contains(above) && !above.contains(element) && getComputedStyle(above).position !== "sticky")
    faults.push(`covered: ${name(element)} by ${name(above)}`);
}
const isOver = (one, other) => one.left < other.right - 2 && other.left < one.right - 2 && one.top < other.bottom - 2 && other.top < one.bottom - 2;
for (const [place, one] of parts.entries())
  for (const other of parts.slice(place + 1))
    if (isOver(one.box, other.box) && !one.element.contains(other.element) && !other.element.contains(one.element))
      faults.push(`overlap: ${name(one.element)}, ${name(other.element)}`);
const ids = [...document.querySelectorAll("[id]")].map(({ id }) => id);
return [...faults, ...ids.filter((id, place) => ids.indexOf(id) !== place).map((id) => `twice: ${id}`)];
"""
# The height of the source that is in sight, after the page is scrolled to it if the whole page scrolls; null where it isn't shown.
SOURCE = """
const source = document.querySelector("#editor .lines, #editor .CodeMirror");
if (!source?.checkVisibility({visibilityProperty: true})) return null;
if (document.documentElement.scrollHeight > innerHeight) scrollTo(0, scrollY + source.getBoundingClientRect().top);
const [own, pane] = [source, source.closest(".pane")].map((each) => each.getBoundingClientRect());
return Math.min(own.bottom, pane.bottom, innerHeight) - Math.max(own.top, pane.top);
"""
FAULTS = f"""
const cut = () => {{ {SEEN} {CUT} }}, unreachable = () => {{ {SEEN} {UNREACHABLE} }};
const low = () => {{ {CONTRAST} }}, source = () => {{ {SOURCE} }};
const faults = [...cut(), ...unreachable(), ...low().map((each) => `low contrast: ${{each}}`)];
const height = source();
scrollTo(0, 0);
return height !== null && height < {LINES * LINE} ? [...faults, `source: ${{height}} px`] : faults;
"""


def resize(browser: "Chrome", size: Size) -> None:
    """Give the page a window of a size."""
    metrics = {"width": size.width, "height": size.height, "deviceScaleFactor": 1, "mobile": size.touch}
    browser.execute_cdp_cmd("Emulation.setDeviceMetricsOverride", metrics)
    browser.execute_cdp_cmd("Emulation.setTouchEmulationEnabled", {"enabled": size.touch})
    media(browser, prefers_color_scheme=size.scheme, prefers_reduced_motion="reduce")
    frames = "requestAnimationFrame(() => requestAnimationFrame(() => setTimeout(arguments[0], 30)))"
    browser.execute_async_script(frames)


def reset(browser: "Chrome") -> None:
    """Give the page the browser's own window."""
    browser.execute_cdp_cmd("Emulation.clearDeviceMetricsOverride", {})
    browser.execute_cdp_cmd("Emulation.setTouchEmulationEnabled", {"enabled": False})
    media(browser)


def layout_faults(browser: "Chrome") -> dict[str, list[str]]:
    """Return the faults of a page by the name of the size, with each of its panes where a small window shows one at a time."""
    faults = dict[str, list[str]]()
    try:
        for name, size in SIZES.items():
            resize(browser, size)
            found = [fault for tab in ["", *_panes(browser)] for fault in faults_now(browser, tab)]
            if found:
                faults[name] = found
    finally:
        reset(browser)
    return faults


def _panes(browser: "Chrome") -> list[str]:
    """The ids of the tabs of panes that the window shows one at a time."""
    ids: list[str] = browser.execute_script(
        f"{SEEN} return seen('.panebar [role=tab]').filter((tab) => tab.ariaSelected !== 'true').map(({{ id }}) => id)"
    )
    return ids


def faults_now(browser: "Chrome", tab: str = "") -> list[str]:
    """The faults of a page at its size; tab: the id of a tab that is pressed before, if any."""
    if tab:
        browser.execute_script("document.getElementById(arguments[0]).click()", tab)
        browser.execute_async_script("requestAnimationFrame(() => setTimeout(arguments[0], 30))")
    return [f"{tab} {fault}".strip() for fault in browser.execute_script(FAULTS)]
