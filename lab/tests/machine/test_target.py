"""Images for other instruction sets: longer vector registers are refused, missing extensions are named; and damaged attributes."""

import pathlib
import struct
import subprocess

import pytest

from support.commands import Lab
from support.images import MARCH
from support.places import SUM
from vecmon_lab import Kernel, LabError
from vecmon_lab.compilers.compiler import Compiler
from vecmon_lab.exercises.exercise import OURS
from vecmon_lab.machine.target import check_kind, extensions_of, target_warnings

EXIT = ".globl _start\n_start: li a0, 0\nli a7, 93\necall\n"
NEEDS = "it is compiled for vector registers of at least 512 bits (zvl512b), and the machine's have 256"
REFUSED = f"{NEEDS}: compile with {MARCH}"
OVERRIDE = ", or run it as it is with --any-vlen"


def assembled(clang: Compiler, path: pathlib.Path, march: str) -> pathlib.Path:
    """An image that exits with 0, for the instruction set of `-march`; LLVM writes its attributes."""
    linker = clang.name.replace("clang", "lld")
    words = ["--target=riscv64", march, "-mabi=lp64", "-nostdlib", "-static", f"-fuse-ld={linker}", "-x", "assembler"]
    subprocess.run([clang.name, *words, "-", "-o", path], input=EXIT.encode(), check=True)
    return path


@pytest.fixture(scope="module")
def longer(clang: Compiler, tmp_path_factory: pytest.TempPathFactory) -> pathlib.Path:
    """An image for vector registers of 512 bits."""
    return assembled(clang, tmp_path_factory.mktemp("target") / "longer", "-march=rv64im_zve64x_zvl512b")


@pytest.fixture(scope="module")
def floats(clang: Compiler, tmp_path_factory: pytest.TempPathFactory) -> pathlib.Path:
    """An image for atomic, floating-point and Zvbb instructions; it has none of them."""
    return assembled(clang, tmp_path_factory.mktemp("target") / "floats", "-march=rv64imafdv_zvbb_zvl256b_zifencei")


def commands(image: pathlib.Path, folder: pathlib.Path) -> dict[str, list[object]]:
    """The arguments of each command that takes an image, by the name that its messages have for it."""
    script = folder / "script"
    script.write_text("1 enter\n1 load it\n")
    whole, named = f"{image}", f"image it={image}"
    return {
        "run": ["run", whole],
        "compare": ["compare", whole],
        "profile": ["profile", whole],
        "profile --against": ["profile", "--against", whole, SUM],
        "console": ["console", whole],
        "gdb": ["gdb", whole],
        "lockstep": ["lockstep", whole, folder / "log"],
        "lesson": ["lesson", script, named.removeprefix("image ")],
        "class": ["class", folder / "class", named.removeprefix("image ")],
    }


@pytest.mark.parametrize("name", commands(pathlib.Path("image"), pathlib.Path("/tmp")))
def test_every_command_refuses_longer_registers(
    lab: Lab, longer: pathlib.Path, tmp_path: pathlib.Path, name: str
) -> None:
    words = commands(longer, tmp_path)[name]
    what = "image it" if name in ("lesson", "class") else longer
    status = 125 if name == "compare" else 2  # of a program that can't be run
    assert lab(*words) == (status, b"", f"vecmon-lab: {what}: {REFUSED}{OVERRIDE}\n")


def test_longer_registers_are_accepted_with_option(lab: Lab, longer: pathlib.Path, tmp_path: pathlib.Path) -> None:
    warning = f"{NEEDS}: its results may be wrong\n"
    assert lab("run", "--any-vlen", longer) == (0, b"", f"vecmon-lab: warning: {longer}: {warning}")
    status, output, errors = lab("lesson", *commands(longer, tmp_path)["lesson"][1:], "--any-vlen")
    assert (status, errors) == (0, f"vecmon-lab: warning: image it: {warning}") and b"loaded pc=" in output


def test_kernel_refuses_longer_registers(longer: pathlib.Path, capfd: pytest.CaptureFixture[str]) -> None:
    with pytest.raises(LabError) as raised:
        Kernel(longer)
    assert str(raised.value) == f"{longer}: {REFUSED}, or give any_vlen=True"
    with Kernel(longer, any_vlen=True) as kernel:
        assert kernel is not None
    assert capfd.readouterr().err == f"vecmon-lab: warning: {longer}: {NEEDS}: its results may be wrong\n"


def test_grade_refuses_longer_registers(lab: Lab, longer: pathlib.Path) -> None:
    status, output, _ = lab("grade", OURS / "doubles", longer, "--rows")
    assert status == 1 and REFUSED.encode() in output and b"any" not in output


def test_missing_extensions_are_named_once(lab: Lab, floats: pathlib.Path) -> None:
    lacking = "A, the floating point of V and Zvbb, which the machine lacks"
    warning = f"vecmon-lab: warning: {floats}: it is compiled for {lacking}: compile with {MARCH}\n"
    assert lab("run", "--count", floats) == (0, b"", f"{warning}3 instructions in 3 ticks\n")
    status, _, errors = lab("compare", floats)
    assert (status, errors) == (0, warning)


@pytest.mark.parametrize("march", [MARCH, "-march=rv64im", "-march=rv64im_zicsr_zifencei_zve64x_zvl128b"])
def test_documented_targets_give_no_warning(clang: Compiler, tmp_path: pathlib.Path, march: str) -> None:
    assert target_warnings(assembled(clang, tmp_path / "image", march)) == []


# GCC 12 wrote the first one, and LLVM 19 the others, for -march=rv64imv, rv64imc_zba_zbb and rv64im_zvkng_zvl1024b
@pytest.mark.parametrize(
    "arch, names",
    [
        ("rv64i2p1_m2p0_zicsr2p0_zve32x1p0_zve64x1p0_zvl128b1p0_zvl256b1p0_zvl32b1p0_zvl64b1p0", "i m zicsr"),
        ("rv64i2p1_m2p0_f2p2_d2p2_v1p0_zicsr2p0_zve32f1p0_zve64d1p0_zvl128b1p0", "i m f d v zicsr zve32f zve64d"),
        ("rv64i2p1_m2p0_c2p0_zmmul1p0_zba1p0_zbb1p0_zca1p0", "i m c zmmul zba zbb zca"),
        ("rv64i2p1_m2p0_zvkng1p0_zvl1024b1p0", "i m zvkng zvl1024b"),
        ("rv64imafdc_zicsr", "i m a f d c zicsr"),
        ("rv64imac_xtheadba1p0_sstc", "i m a c xtheadba sstc"),
    ],
)
def test_names_are_read_without_versions(arch: str, names: str) -> None:
    found = [name for name in extensions_of(arch) if name in names.split() or not name.startswith(("zve", "zvl"))]
    assert found == names.split()


@pytest.mark.parametrize("arch", ["", "rv64", "rv16i", "arm", "rv64i2p1_", "rv64i2p1__m", "rv64i2p1-m2p0"])
def test_malformed_instruction_set_is_refused(arch: str) -> None:
    with pytest.raises(ValueError):
        extensions_of(arch)


def test_damaged_attributes_give_warning(lab: Lab, floats: pathlib.Path, tmp_path: pathlib.Path) -> None:
    """Each byte of the section before the texts is set to 0, 1 and 255, which damages lengths, tags and the form."""
    image, good = tmp_path / "damaged", floats.read_bytes()
    place = good.index(b"riscv\0\1") - 5
    found = set[str]()
    for at in [*range(place, place + 17), good.index(b"rv64i2p1") + 1]:
        for byte in (0, 1, 255):
            image.write_bytes(good[:at] + bytes([byte]) + good[at + 1 :])
            found |= {*target_warnings(image)}
    damaged = "its section .riscv.attributes is damaged, so the instruction set that it is compiled for is unknown"
    assert damaged in found and len(found) == 2  # or the byte was that one before
    image.write_bytes(good[:place] + b"B" + good[place + 1 :])
    assert lab("run", image) == (0, b"", f"vecmon-lab: warning: {image}: {damaged}\n")


def test_section_outside_file_gives_warning(floats: pathlib.Path, tmp_path: pathlib.Path) -> None:
    image, good = tmp_path / "outside", bytearray(floats.read_bytes())
    (table,), (size, number) = struct.unpack_from("<Q", good, 40), struct.unpack_from("<2H", good, 58)
    place = next(at for at in range(table, table + size * number, size) if good[at + 4 : at + 8] == b"\3\0\0\x70")
    struct.pack_into("<Q", good, place + 24, 1 << 40)  # sh_offset of SHT_RISCV_ATTRIBUTES
    image.write_bytes(good)
    assert "damaged" in target_warnings(image)[0]


@pytest.mark.parametrize(
    "offset, form, value",
    [(40, "<Q", 1 << 50), (40, "<Q", 1 << 63), (60, "<H", 0xFFFF), (58, "<H", 1), (62, "<H", 0xFFFE)],
    ids=["e_shoff", "e_shoff 2^63", "e_shnum", "e_shentsize", "e_shstrndx"],
)
def test_damaged_section_headers_give_warning(
    longer: pathlib.Path, tmp_path: pathlib.Path, offset: int, form: str, value: int
) -> None:
    image, data = tmp_path / "damaged", bytearray(longer.read_bytes())
    struct.pack_into(form, data, offset, value)
    image.write_bytes(data)
    expected = "its section headers are damaged, so the instruction set that it is compiled for is unknown"
    assert target_warnings(image) == [expected]


def test_table_of_sections_cut_off_gives_warning(longer: pathlib.Path, lab: Lab, tmp_path: pathlib.Path) -> None:
    """The file ends in the last section header."""
    image, data = tmp_path / "cut", longer.read_bytes()
    (table,), (size, number) = struct.unpack_from("<Q", data, 40), struct.unpack_from("<2H", data, 58)
    image.write_bytes(data[: table + size * number - 1])
    status, _, errors = lab("run", image)
    assert (status, errors.count("\n")) == (0, 1)
    assert errors.startswith(f"vecmon-lab: warning: {image}: its section headers are damaged")


def test_files_without_attributes_give_no_warning(floats: pathlib.Path, tmp_path: pathlib.Path) -> None:
    stripped = bytearray(floats.read_bytes())
    stripped[40:48], stripped[58:64] = bytes(8), bytes(6)  # e_shoff, and the sections' size and number
    for name, data in {"stripped": bytes(stripped), "cut": bytes(stripped[:30]), "text": b"1 enter\n"}.items():
        (tmp_path / name).write_bytes(data)
        assert target_warnings(tmp_path / name) == []


# e_machine by the gABI: 3 EM_386, 40 EM_ARM, 62 EM_X86_64, 183 EM_AARCH64, 22 EM_S390
@pytest.mark.parametrize("number, name", [(3, "x86"), (40, "Arm"), (62, "x86-64"), (183, "AArch64"), (22, "S390")])
def test_images_for_other_machines_are_named(lab: Lab, tmp_path: pathlib.Path, number: int, name: str) -> None:
    image, data = tmp_path / "other", bytearray(SUM.read_bytes())
    data[16:20] = struct.pack("<2H", 3, number)  # position-independent, as a system's programs
    image.write_bytes(data)
    text = f"it is for {name}, and not for RISC-V: compile with {MARCH} -mabi=lp64"
    assert lab("run", image) == (2, b"", f"vecmon-lab: {image}: {text}\n")
    data[5], data[16:20] = 2, struct.pack(">2H", 2, number)  # big-endian
    image.write_bytes(data)
    with pytest.raises(LabError, match=f"it is for {name}, "):
        check_kind(image)


def test_object_file_is_named(lab: Lab, tmp_path: pathlib.Path) -> None:
    data = SUM.read_bytes()
    (tmp_path / "sum.o").write_bytes(data[:16] + b"\1\0" + data[18:])  # e_type is ET_REL
    text = "it is an object file, and no program: link it with -nostdlib -static -no-pie"
    for command, status in ("run", 2), ("compare", 125), ("profile", 2):
        assert lab(command, tmp_path / "sum.o") == (status, b"", f"vecmon-lab: {tmp_path / 'sum.o'}: {text}\n")
