# SPDX-License-Identifier: MIT OR Apache-2.0
"""The functions, faults and structs of the headers are those of the libraries, the pages and the Python package.

The libraries export nothing else, call nothing that ends the process or handles signals, and nothing in a process can
redirect their calls."""
from __future__ import annotations

import re
import subprocess
from pathlib import Path
from typing import Callable

import pytest

from support.check import Check
from support.library import EXPORTS, Library, as_built, names
from support.program import TOP

LEAST = {"comparisons": 94}
# The C functions that a library may call: memory, bytes, files, the process, errno, and its texts.
MAY_CALL = frozenset({
    "malloc", "realloc", "free", "memcpy", "memmove", "memset", "memcmp", "bcmp", "strlen", "__errno_location", "open",
    "open64", "close", "read", "pread", "pread64", "pwrite", "pwrite64", "lseek", "lseek64", "ftruncate", "ftruncate64",
    "fdatasync", "fsync", "strrchr", "flock", "fcntl", "fcntl64", "statx", "realpath", "nanosleep", "clock_gettime", "__xpg_strerror_r",
    # And what the part in plain C calls: the name of a new file, the time of its creation, and numbers.
    "getpid", "access", "link", "unlink", "rename", "renameat2", "fstat", "fstat64", "lstat", "lstat64", "memchr", "snprintf",
    "__snprintf_chk", "strerrordesc_np", "time", "strtoull", "__isoc23_strtoull"})
# The functions of the compiler's own library (division of 128 bits), of the linker and of the start files.
OF_LINKER = frozenset({"__divti3", "__udivti3", "__cxa_finalize", "__gmon_start__", "_ITM_deregisterTMCloneTable",
                       "_ITM_registerTMCloneTable"})
FUNCTION = re.compile(r"^(?!static )\w[\w ]*[ *](rrdi_\w+)\(", re.MULTILINE)
# A function of the headers alone. A name that ends in an underscore is not for programs.
INLINE = re.compile(r"^static inline [\w ]*[ *](rrdi_\w*[a-z])\(", re.MULTILINE)
# The number of Python's fault that is only the reason of a refused line of a batch.
OF_A_LINE = 12
# The structs of C that Python reads, by Python's names for them; and the types of their fields.
STRUCTS = {"answer": "_Answer", "file": "_File"}
TYPES = {"uint8_t": "c_uint8", "uint32_t": "c_uint32", "uint64_t": "c_uint64", "bool": "c_bool", "void *": "c_void_p"}
# The texts that no message of docs/errors.md begins with.
OTHER_TEXTS = {"RRDI_OK": "no fault", "RRDI_NO_ROOM": "too little room", "RRDI_REFUSED": "refused"}
TEXTS = "library/c/texts.c"
SHOW_TEXTS = """#include <rrdi.h>
#include <stdio.h>
int main(void) {
    for (uint32_t fault = 0; fault < 30; fault++)
        printf("%u %s\\n", fault, rrdi_strerror(fault));
    printf("%s\\n", strcmp(rrdi_version(), rrdi_libversion()) ? "two versions" : rrdi_version());
    return 0;
}
"""


def printed(*words: object) -> str:
    return subprocess.run(list(map(str, words)), capture_output=True, text=True, check=True).stdout


def compare(check: Check, what: str, found: object, right: object) -> None:
    check.count("comparisons")
    check(found == right, f"{what}: {found!r}, not {right!r}")


class Source:
    """The texts of a repository that name what is in the headers."""

    def __init__(self, top: Path) -> None:
        self.top = top
        self.header, self.manual = self.text("include/rrdi.h"), self.text("docs/rrdi.3")
        self.faults = {name: int(number) for name, number in self.found(r"^    (RRDI_\w+) = (\d+)", self.header)}

    def text(self, name: str) -> str:
        return (self.top / name).read_text()

    @staticmethod
    def found(pattern: str, text: str, flags: int = 0) -> list[tuple[str, str]]:
        return re.findall(pattern, text, re.MULTILINE | flags)

    def inline(self) -> set[str]:
        return {name for header in self.top.glob("include/*.h") for name in INLINE.findall(header.read_text())}

    def prototypes(self) -> dict[str, tuple[str, str]]:
        """Returns what each function of the header returns, and its parameters."""
        code = re.sub(r"/\*.*?\*/", "", self.header, flags=re.DOTALL)
        found = self.found(r"^(?:static inline )?([\w ]+[ *])(rrdi_\w*[a-z])\(([^)]*)\)", code)
        return {name: (kind.strip(), " ".join(parameters.split())) for kind, name, parameters in found}

    def manual_prototypes(self) -> dict[str, tuple[str, str]]:
        """Returns the same as the SYNOPSIS of rrdi.3 shows it."""
        found = self.found(r"^\.Ft (.*)\n\.F[no] (\w+)(.*\n(?:\.Fa .*\n)*)", self.manual.split(".Sh DESCRIPTION")[0])
        return {name: (kind, ", ".join(re.findall('"([^"]*)"', words) or words.split())) for kind, name, words in found}

    def python_faults(self) -> dict[str, int]:
        """Returns the numbers of the faults in the Python package, by its names for them."""
        rows = self.found(r"^([A-Z_, ]+) = ([\d, ]+)$", self.text("python/rrdi/errors.py"))
        return {name: int(number) for names, row in rows for name, number in zip(names.split(", "), row.split(", "))}

    def python_texts(self) -> dict[int, str]:
        """Returns the texts by whose beginning the Python package knows a fault."""
        numbers, texts = self.python_faults(), self.text("python/rrdi/errors.py")
        rows = self.found(r'"([a-z: ]+)": ([A-Z_]+)\b', texts)
        return {numbers[name]: re.sub(r"at $", "", text).strip() for text, name in rows}

    def proved_numbers(self) -> set[int]:
        """Returns the numbers of faults of the definition that the proofs are about, 0, and 1 for no room."""
        found = self.found(r"^(\w+_number|number_of) .*= (\d+)$", self.text("library/rrdi_c/specs/Numbers.antt.in"))
        return {0, 1} | {int(number) for _, number in found}

    def messages(self) -> list[str]:
        cells = re.findall(r"^\|([^|]+)\|", self.text("docs/errors.md"), re.MULTILINE)
        return [message for cell in cells for message in re.findall("`([^`]+)`", cell)]


def compare_pages(source: Source, check: Check) -> None:
    """The functions of the header are those of the Makefile, the version script and the manual page."""
    functions = set(FUNCTION.findall(source.header))
    exports = source.text("Makefile").partition("\nEXPORTS = ")[2].replace("\\\n", " ").partition("\n")[0]
    both = sorted(functions | source.inline())
    synopsis = source.manual.split(".Sh DESCRIPTION")[0]
    for what, those, right in (
            ("the tests", EXPORTS, functions), ("the Makefile", set(exports.split()), functions),
            ("librrdi.map", set(re.findall(r"(rrdi_\w+);", source.text("include/librrdi.map"))), functions),
            ("SYNOPSIS of rrdi.3", sorted(re.findall(r"^\.F[no] (\w+)", synopsis, re.MULTILINE)), both),
            ("NAME of rrdi.3", sorted(re.findall(r"^\.Nm (rrdi_\w+)", source.manual, re.MULTILINE)), both)):
        compare(check, f"the functions of {what}", those, right)
    compare(check, "the parameters in SYNOPSIS of rrdi.3", source.manual_prototypes(), source.prototypes())
    compare(check, "the soname in Python", "librrdi.so.0" in source.text("python/rrdi/library.py"), True)


def compare_faults(source: Source, check: Check) -> None:
    """The numbers of faults and the fields of structs are in the pages and in Python as in the header."""
    faults = source.faults
    manual = {name: int(number) for name, number in source.found(r"\bDv (RRDI_\w+) No (\d+)", source.manual)}
    compare(check, "the faults of rrdi.3", manual, faults)
    compare(check, "the faults of Python", sorted(source.python_faults().values()), sorted([*faults.values(), OF_A_LINE]))
    compare(check, "the numbers that library/rrdi_c gives", source.proved_numbers(), set(faults.values()))
    python = source.text("python/rrdi/by_ctypes.py")
    for name, type_name in STRUCTS.items():
        struct = re.search(rf"^struct rrdi_{name} \{{\n(.*?)^\}};", source.header, re.MULTILINE | re.DOTALL)
        fields = source.found(r"^    (\w+(?: \*)?) ?(\w+)(?:\[\w+\])?;", struct[1] if struct else "")
        read = re.search(rf"^class {type_name}\(.*?_fields_ = \[(.*?)\]\n", python, re.MULTILINE | re.DOTALL)
        found = source.found(r'\("(\w+)", ctypes\.(\w+)', read[1] if read else "")
        compare(check, f"the fields of rrdi_{name}", found, [(field, TYPES.get(kind)) for kind, field in fields])
        lengths = source.found(r"(\w+)\[(\w+)\];", struct[1] if struct else "")
        read_lengths = source.found(r'\("(\w+)", ctypes\.\w+ \* (\w+)', read[1] if read else "")
        compare(check, f"the lengths of rrdi_{name}", with_numbers(read_lengths, r"^{} = ([\d_]+)", python),
                with_numbers(lengths, r"^#define {} (\d+)", source.header))


def with_numbers(fields: list[tuple[str, str]], form: str, text: str) -> list[tuple[str, int]]:
    """Returns fields with their lengths. A length that is a name has its number in the text."""
    found = [(field, length, re.search(form.format(length), text, re.MULTILINE)) for field, length in fields]
    return [(field, int(named[1] if named else length)) for field, length, named in found]


def compare_texts(source: Source, compiler: list[str], folder: Path, check: Check) -> None:
    """Each fault has the text with which its message begins in errors.md, and all other numbers the same one."""
    (folder / "texts.c").write_text(SHOW_TEXTS)
    subprocess.run([*compiler, "-Wall", "-Wextra", "-Werror", f"-I{source.top}/include", "-o", "texts", "texts.c",
                    str(source.top / TEXTS)], cwd=folder, check=True)
    *lines, version = printed(folder / "texts").splitlines()
    texts = {int(number): text for number, _, text in (line.partition(" ") for line in lines)}
    known = source.python_texts()
    known.pop(OF_A_LINE, None)
    compare(check, "the texts of Python", known, {number: texts.get(number) for number in known})
    named = {number: name for name, number in source.faults.items()}
    for number, text in texts.items():
        name = named.get(number, "")
        is_message = any(f"{message} ".startswith(f"{text} ") for message in source.messages())
        is_right = text == OTHER_TEXTS.get(name, text if is_message else "") if name else text == "unknown fault"
        compare(check, f"the text of fault {number}, {text!r}, is right", is_right, True)
    compare(check, "rrdi_version()", version, source.text("VERSION").strip())


def compare_exports(shared: Path, static: Path, check: Check) -> None:
    """The libraries export the functions, and call only what is known to be harmless."""
    compare(check, "what the shared library exports", sorted(names(shared, "-D", "--defined-only") - {"LIBRRDI_0"}),
            sorted(EXPORTS))
    compare(check, "what the static library exports", sorted(names(static, "-g", "--defined-only")), sorted(EXPORTS))
    for path, option in ((shared, "-D"), (static, "-g")):
        other = names(path, option, "--undefined-only") - MAY_CALL - OF_LINKER
        compare(check, f"what else {path.name} calls", sorted(other), [])
    versions = re.findall(r" ([\w.()]+) +rrdi_\w+$", printed("objdump", "-T", shared), re.MULTILINE)
    compare(check, "the versions of the functions", set(versions), {"LIBRRDI_0"})
    soname = re.findall(r"SONAME +(\S+)", printed("objdump", "-p", shared))
    compare(check, "the soname", soname, ["librrdi.so.0"])


def compare_linking(library: Path, check: Check) -> None:
    """The addresses of calls are found at once, and are read-only then."""
    shown = printed("objdump", "-p", library)
    now = [int(flags, 16) & 1 for flags in re.findall(r"^ +FLAGS_1 +0x([0-9a-f]+)", shown, re.MULTILINE)]
    compare(check, f"the calls of {library.name}: read-only, found at once", (" RELRO " in shown, now), (True, [1]))


COMPILERS = {"C": ["cc", "-std=c99", "-pedantic"], "C++": ["c++", "-x", "c++", "-std=c++11"]}
# The standards by which a program may be compiled that includes the header.
STANDARDS = {"cc": ("c99", "c11", "c17", "c2x", "gnu11"),
             "c++": ("c++98", "c++03", "c++11", "c++14", "c++17", "c++20")}
LANGUAGES = {"cc": "c", "c++": "c++"}


def test_pages(check: Check) -> None:
    compare_pages(Source(TOP), check)
    compare_faults(Source(TOP), check)


@pytest.mark.parametrize("language", COMPILERS)
def test_texts(language: str, needs: Callable[..., None], folder: Path, check: Check) -> None:
    needs(COMPILERS[language][0])
    compare_texts(Source(TOP), COMPILERS[language], folder, check)


def test_libraries(built: Library, check: Check) -> None:
    compare_exports(built.shared, built.static, check)
    compare_linking(built.shared, check)


def test_the_library_for_programs_that_record(built: Library, folder: Path, needs: Callable[..., None],
                                              check: Check) -> None:
    needs("make")
    printed("make", "-s", "-C", TOP, "record", *as_built(built.shared, folder))
    compare_linking(folder / "librrdi-record.so", check)


@pytest.mark.parametrize("compiler", STANDARDS)
def test_standards(compiler: str, needs: Callable[..., None], check: Check) -> None:
    needs(compiler)
    for standard in STANDARDS[compiler]:
        compile_header(TOP / "include/rrdi.h", compiler, standard, check)


def compile_header(header: Path, compiler: str, standard: str, check: Check) -> None:
    """A compiler says nothing of a program with the header that uses what is inline."""
    program = f'#include "{header}"\nint main(void) {{ return sizeof(RRDI_VERSION) == 1; }}\n'
    ran = subprocess.run([compiler, f"-std={standard}", "-Wall", "-Wextra", "-pedantic", "-Werror", "-fsyntax-only", "-x",
                          LANGUAGES[compiler], "-"], input=program, capture_output=True, text=True)
    compare(check, f"what {compiler} says of {header.name} by {standard}", (ran.returncode, ran.stderr), (0, ""))


# ---- wrong texts, and wrong libraries

FAULTS = (
    ("include/rrdi.h", "RRDI_TRUNCATED = 22", "RRDI_TRUNCATED = 23"),
    ("include/rrdi.h", "bool is_cut; ", "int is_cut; "),
    ("include/rrdi.h", "RRDI_EXPLANATION 8192", "RRDI_EXPLANATION 4096"),
    ("include/rrdi.h", "bool is_open; ", "int is_open; "), ("docs/rrdi.3", ".Fo rrdi_batch_file", ".Fo rrdi_batch"),
    ("include/rrdi.h", "uint64_t start, uint64_t end,\n                       struct rrdi_rows *rows, struct rrdi_value *values, size_t room)",
     "uint64_t end, uint64_t start,\n                       struct rrdi_rows *rows, struct rrdi_value *values, size_t room)"),
    ("docs/rrdi.3", ".Nm rrdi_words", ".Nm rrdi_word"), ("docs/rrdi.3", "Dv RRDI_READ No", "Dv RRDI_READ"),
    ("include/librrdi.map", "rrdi_batch_file;", ""), ("Makefile", "rrdi_fetch_open rrdi_close", "rrdi_fetch_open"),
    ("library/rrdi_c/specs/Numbers.antt.in", "= 26", "= 3"), ("python/rrdi/library.py", "librrdi.so.0", "librrdi.so"),
    ("python/rrdi/errors.py", "NOT_OURS, VERSION, TRUNCATED", "NOT_OURS, TRUNCATED"))
WRONG_TEXTS = (("include/rrdi.h", 'RRDI_VERSION "', 'RRDI_VERSION "1'), (TEXTS, '"file: bad block"', '"bad block"'),
               (TEXTS, '"file: truncated"', '"file: trailing"'))
OTHER = "#include <stdlib.h>\nvoid rrdi_run(void) { abort(); }\nvoid rrdi_batch(void) {}\nvoid other(void) {}\n"
COPIED = ("Makefile", "VERSION", "include/rrdi.h", "include/librrdi.map", "docs/rrdi.3",
          "docs/errors.md", "library/rrdi_c/specs/Numbers.antt.in", TEXTS, "python/rrdi/library.py", "python/rrdi/by_ctypes.py", "python/rrdi/errors.py")


def with_fault(top: Path, file: str, old: str, new: str) -> Source:
    """Copies the texts of the repository with an edit of one of them."""
    for name in COPIED:
        (top / name).parent.mkdir(parents=True, exist_ok=True)
        text = (TOP / name).read_text()
        assert name != file or old in text, f"{file} no longer has {old!r}"
        (top / name).write_text(text.replace(old, new) if name == file else text)
    return Source(top)


def test_wrong_pages(folder: Path, planted: Check) -> None:
    for file, old, new in FAULTS:
        source, before = with_fault(folder, file, old, new), len(planted.faults)
        compare_pages(source, planted)
        compare_faults(source, planted)
        assert len(planted.faults) > before, (file, old, new)


def test_wrong_texts(needs: Callable[..., None], folder: Path, planted: Check) -> None:
    needs("cc")
    for file, old, new in WRONG_TEXTS:
        source, before = with_fault(folder, file, old, new), len(planted.faults)
        compare_texts(source, COMPILERS["C"], folder, planted)
        assert len(planted.faults) > before, (file, old, new)


def test_wrong_libraries(needs: Callable[..., None], folder: Path, planted: Check) -> None:
    """Finds libraries with other names, which call abort, and a header with a word of C++."""
    needs("cc", "c++", "nm", "objdump")
    (folder / "other.c").write_text(OTHER)
    for words in ("cc -shared -fPIC -o other.so other.c", "cc -c -o other.o other.c", "ar rcs other.a other.o"):
        subprocess.run(words.split(), cwd=folder, check=True)
    compare_exports(folder / "other.so", folder / "other.a", planted)
    compare_linking(folder / "other.so", planted)
    (folder / "one.h").write_text("static inline int new(void) { return 1; }\n")
    compile_header(folder / "one.h", "c++", "c++98", planted)
    assert len(planted.faults) == 8
