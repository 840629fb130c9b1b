"""The codes that open seats."""

from vecmon_lab.classes.core.codes import CODE_LETTERS, Codes, new_code


def test_renewed_code_replaces_old_code() -> None:
    codes = Codes("AB", {"A1": "kept", "C1": "gone"})
    assert list(codes.codes) == ["teacher", "wall", *(f"{letter}{digit}" for letter in "AB" for digit in "12345678")]
    assert codes.owner("kept") == "A1" and codes.owner(codes.codes["teacher"]) == "teacher"
    assert [codes.owner(code) for code in ("", "gone", None, 5, "é", "\ud800")] == [None] * 6
    codes.renew("A1")
    assert codes.owner("kept") is None and codes.owner(codes.codes["A1"]) == "A1"
    assert len(CODE_LETTERS) ** len(new_code()) > 1 << 64
    assert len({new_code() for _ in range(1000)}) == 1000
