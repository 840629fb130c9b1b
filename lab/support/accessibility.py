"""A page as assistive technology presents it: Chromium's accessibility tree, and the order in which Tab goes through the page."""

from collections.abc import Sequence
from typing import TYPE_CHECKING, Any, NamedTuple

from support.browser import press

if TYPE_CHECKING:
    from selenium.webdriver import Chrome

# Roles of elements that a reader uses; each must have a name.
CONTROLS = frozenset(
    "button checkbox combobox DisclosureTriangle gridcell link listbox menuitem radio searchbox separator slider spinbutton switch tab"
    " textbox".split()
)
# Roles of boxes that have the focus, so that keys scroll them or choose a value in them.
BOXES = frozenset("document grid group list log region table tabpanel".split())


class Node(NamedTuple):
    """A node of the accessibility tree: its role and its name."""

    role: str
    name: str


class Stop(NamedTuple):
    """An element that Tab goes to: its node, and whether it is above the stop before it, or to the left of it in the same row."""

    node: Node
    goes_back: bool


def accessible_nodes(browser: "Chrome") -> list[Node]:
    """The nodes of a page that assistive technology gets."""
    tree: list[dict[str, Any]] = browser.execute_cdp_cmd("Accessibility.getFullAXTree", {})["nodes"]
    return [Node(it["role"]["value"], it.get("name", {}).get("value", "").strip()) for it in tree if not it["ignored"]]


def nameless(nodes: Sequence[Node], stops: Sequence[Stop]) -> list[Node]:
    """The controls and stops without a name, and the stops without the role of a control or a box."""
    used = [each for each in nodes if each.role in CONTROLS and not each.name]
    return used + [node for node, _ in stops if not node.name or node.role not in CONTROLS | BOXES]


# Whether the element with the focus precedes the last one in their region; null where Tab has left the page or begins anew.
MOVED = """
const element = document.activeElement, last = window.lastStop;
window.firstStop ??= element;
if (element === document.body || (last && element === window.firstStop)) return null;
window.lastStop = element;
const region = (stop) => stop.closest(".head, .foot, .body, .reading, .field, .split, .stage, header, form, footer, section, main");
if (!last || region(last) !== region(element)) return false;
const [one, other] = [last, element].map((stop) => stop.getBoundingClientRect());
const isBelow = other.top >= one.bottom - 1;
return other.bottom <= one.top + 1 || (!isBelow && other.left < one.left - 1);
"""


def tab_stops(browser: "Chrome", most: int = 90) -> list[Stop]:
    """The elements that Tab goes to from the start of the page, until it leaves the page or comes to the first one again."""
    from selenium.webdriver.common.keys import Keys

    browser.execute_script(
        "document.activeElement?.blur(); getSelection().removeAllRanges(); delete window.firstStop, delete window.lastStop"
    )
    stops = list[Stop]()
    while len(stops) < most:
        press(browser, Keys.TAB)
        goes_back = browser.execute_script(MOVED)
        if goes_back is None:
            break
        element = browser.switch_to.active_element
        stops.append(Stop(Node(element.aria_role, element.accessible_name), goes_back))
    return stops
