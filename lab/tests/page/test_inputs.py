"""The inputs of a source on the page: rows that read and write its `#>` lines; unsupported calls in Output; functions that print numbers."""

from page.conftest import Sit
from support.class_pages import Tab

COPY = """#> a0 = u8[4]
#> a1 = text "abc"
        lw t0, 0(a1)
        sw t0, 0(a0)
        lw a2, 0(a0)
        ret
"""
ROWS = (
    "all('#inputs .input').map((row) => [...row.children].map(({ value }) => value).slice(0, 3).join('|')).join('; ')"
)
REGISTER = "one('#registers [data-edit=\"set x12\"]')?.textContent"


def step(tab: Tab) -> None:
    """Load the source, and step through all of it."""
    tab.run("id('assemble').click()")
    tab.wait("one('#listing .next') && !all('#mistakes li').length")
    tab.command("step 20")


def test_rows_and_lines_agree(sit: Sit) -> None:
    tab = sit("A1")
    assert not tab.run("id('inputs').checkVisibility()")
    tab.write(COPY)
    tab.wait(f"{ROWS} === arguments[0]", 'a0|u8[4]|; a1|text|"abc"')
    step(tab)
    tab.wait(f"one('#stop').textContent.includes('ended by ret') && {REGISTER} === '6513249'")  # "abc\0", little-endian
    field = "all('#inputs .values')[1]"
    tab.run(f"{field}.value = '\"xyz\"', {field}.dispatchEvent(new Event('change'))")
    assert tab.run("text()").splitlines()[1] == '#> a1 = text "xyz"'
    step(tab)
    tab.wait(f"{REGISTER} === '8026488'")
    tab.run("all('#inputs button')[0].click()")
    tab.wait(f"{ROWS} === arguments[0]", 'a1|text|"xyz"')
    tab.run("id('add-input').click()")
    tab.wait(f"{ROWS} === arguments[0]", 'a1|text|"xyz"; a1||0')
    tab.write("#> q7 = 5\n#> step 3\n        nop\n")
    tab.wait("all('#mistakes li').length === 2")
    problems = tab.run("all('#mistakes li button:first-child').map((entry) => entry.textContent)")
    assert problems[0].startswith("1:4: q7 is no register")
    assert problems[1].startswith("2:1: ") and "step is for lessons" in problems[1]


def test_output_names_unsupported_calls(sit: Sit) -> None:
    """With the numbers of RARS, as its help lists them: 1 is PrintInt."""
    tab = sit("A1")
    tab.write("        li a0, 5\n        li a7, 1\n        ecall\n        ret\n")
    step(tab)
    tab.wait("one('#unsupported li')")
    tab.run("id('show-output').click()")
    tab.wait("id('output-new').hidden")
    assert tab.run("one('#unsupported li').textContent").startswith(
        "Line 3: ecall 1 prints an integer in RARS, and isn't supported"
    )
    tab.run("id('add-output').click()")
    lines = tab.run("text()").splitlines()
    assert "put_int:" in lines and lines[3] == "        ret" and lines[4] == ""
