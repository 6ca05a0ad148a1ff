# SPDX-License-Identifier: MIT OR Apache-2.0
"""The commands and batches of the program on files do what the manual says (docs/commands.md): statuses, texts, files.
So do the longest lines and the deepest journal; and the usage text says what both manuals say."""
from __future__ import annotations

import os
import re
import string

from support import definitions, layout, manual, marks, random_batches
from support.program import TOP, error
from support.runs import CREATE, FILE, MISUSE, RUNS, Runs, refused

LEAST = {RUNS: 950}
NO_SAMPLE, NO_OPTION = "a sample is missing, such as N:21.5", "an option, or RRA: or DELRRA:, is missing"
NO_SOURCE = "a data source is missing, such as DS:temp:GAUGE:600:U:U"
TOO_LONG = "it would be over 1000000 rows; raise --start or --resolution"
LATER = "5 is not later than the last update, 10; the next sample may be at 11 or later"
MISSING = "no such file or directory"


def test_words_and_files(t: Runs) -> None:
    for words in ([], ["--help"], ["create"], ["last"], ["last", "-"], ["last", "-x"], ["nothing", FILE],
                  ["last", FILE, "more"], ["last", FILE, "--help"], ["batch", "-"], ["batch", FILE, "last"]):
        t.same(words, 2, MISUSE)
    t.same(["last", FILE], 1, refused("cannot open", FILE, MISSING))
    t.same(["update", FILE, "10:1"], 1, refused("cannot open", FILE, MISSING))
    t.same(["update", FILE, "10"], 1, error("unreadable sample 1") + "rrdi: '10' has no value; write TIME:VALUE\n")
    t.same(["create", FILE, "--step", "0"], 1, error("bad step") + "rrdi: --step is '0', not 1 to 1000000 seconds\n")
    t.check.same(t.held(), None, "no file is made")
    t.run(["last", "."], 1, err=refused("cannot open", ".", "is a directory"))
    t.run(["create", ".", *CREATE], 1, err=refused("cannot write", ".", "is a directory"))
    t.run(["last", ""], 1, err=error("cannot open") + f"rrdi: {MISSING}\n")
    t.run(["create", "nowhere/file", *CREATE], 1, err=refused("cannot write", "nowhere/file", MISSING))
    t.run(["last", "/dev/null/file"], 1, err=refused("cannot open", "/dev/null/file", "not a directory"))
    long = "long" * 100
    t.run(["last", long], 1, err=refused("cannot open", long, "File name too long (os error 36)"))
    # No control character of a name reaches the terminal.
    t.run(["last", "\033[31m\nred\177"], 1, err=refused("cannot open", "\\u{1b}[31m\\nred\\u{7f}", MISSING))


def test_one_file(t: Runs) -> None:
    t.run(["create", FILE, *CREATE])
    new = t.held()
    t.check.same(len(new), 224, "the bytes of a new file")
    t.run(["update", FILE, "10:1"])
    t.check.same(len(t.held()), 309, "its bytes with an entry")
    t.run(["last", FILE], out="10\n")
    t.run(["fetch", FILE, "LAST", "-s", "0", "-e", "19"], out="time: g\n10: 1.000000\n20: nan\n")
    for words, text, says in [(["update", "5:1"], "not later than 10", LATER), (["update"], "no sample", NO_SAMPLE),
                              (["tune"], "nothing to tune", NO_OPTION), (["create"], "no data source", NO_SOURCE),
                              (["resize", "0", "SHRINK", "4"], "shrinks too far",
                               "archive 0 has 4 rows, of which one has to be left"),
                              (["fetch", "MIN"], "no archive for this function", "the archives have LAST")]:
        t.same([words[0], FILE, *words[1:]], 1, error(text) + f"rrdi: {says}\n")
    t.run(["tune", FILE, "-i", "g:5"])
    t.run(["resize", FILE, "0", "GROW", "1"])
    for _ in range(3):
        t.run(["revert", FILE])
    t.check.same(t.held(), new, "the file after all changes are reverted")
    t.same(["revert", FILE], 1, error("nothing to revert")
           + "rrdi: no change is left in the journal, which keeps the newest 16\n")
    t.run(["update", FILE, "N:1"])
    t.run(["create", FILE, *CREATE])
    t.check.same(t.held(), new, "the file that a create replaced")


def test_other_bytes(net: Runs) -> None:
    t = net
    new = t.held()
    for held, text in [(b"", "truncated at 0"), (b"RRD", "truncated at 3"), (b"RRDX", "not ours"),
                       (b"RRDI\0\3", "version"), (new[:100], "truncated at 100"), (new + b"\0", "trailing at 224"),
                       (new[:9] + b"\0" + new[10:], "bad block at 6"),
                       (new[:29] + b"\1" + new[30:] + b"\4", "bad entry 1")]:
        t.put(held)
        t.same(["last", FILE], 1, error(f"file: {text}"))
        t.same(["update", FILE, "10:1"], 1, error(f"file: {text}"))
        t.same(["batch", FILE], 1, error(f"file: {text}"), "last\n")
    t.same(["nothing", FILE], 2, MISUSE)
    t.run(["create", FILE, *CREATE])
    t.check.same(t.held(), new, "the file that a create made of other bytes")


def test_batches(net: Runs) -> None:
    t = net
    new = t.held()
    t.run(["batch", FILE], 1, "10\nERROR: usage\n", lines="update 10:1\nlast\nnothing\n")
    t.check.same(len(t.held()), 309, "the bytes that a batch left")
    t.run(["batch", FILE], 0, "10\n0\n", lines="last\nrevert\nlast\n")
    t.check.same(t.held(), new, "the file after a batch that reverted")
    t.run(["batch", "another"], 1, "ERROR: no database\n", lines="last\n")
    t.check.same(t.held("another"), None, "no database makes no file")
    t.run(["batch", "another"], lines="create " + " ".join(CREATE) + "\n")
    t.check.same(t.held("another"), new, "the file that a batch made")
    t.run(["batch"], 0, "0\n", lines="create " + " ".join(CREATE) + "\nlast\n")
    t.run(["batch", "nowhere/file"], 1, "", refused("cannot open", "nowhere/file", MISSING),
          "create " + " ".join(CREATE) + "\nlast\n")
    t.run(["batch", ""], 1, "", error("cannot open") + f"rrdi: {MISSING}\n", "create " + " ".join(CREATE) + "\nlast\n")
    t.run(["batch", "./one"], 0, "0\n", "", "create " + " ".join(CREATE) + "\nlast\n")
    os.symlink("nowhere/file", f"{t.folder}/leads-nowhere")
    t.run(["batch", "leads-nowhere"], 1, "0\n", refused("cannot write", "leads-nowhere", MISSING),
          "create " + " ".join(CREATE) + "\nlast\n")


# Commands that read or change a file, and the lines of the batch.
COMMANDS = (["last"], ["info"], ["first"], ["lastupdate"], ["fetch", "LAST"], ["update", "50:1"], ["tune", "-i", "g:1"],
            ["resize", "0", "GROW", "1"], ["revert"], ["batch"])
NOTES = b"ed notes of another program\n" * 300


def test_files_of_others(t: Runs) -> None:
    """Checks that each command refuses a file that is not rrdi's, and leaves the file as it is, though the file begins
    like one whose change was interrupted."""
    new = layout.heads(2, ["g"], [4]) + 4 * layout.UNKNOWN
    bad = new[:9] + b"\0" + new[10:]
    others = {"RRDCached": b"RRDCach" + NOTES, "four letters": b"RRDC", "a version": b"RRDC\0\3" + NOTES,
              "zeros": b"RRDC" + bytes(9_000), "a part of a database": b"RRDC" + new[4:100],
              "a bad header": b"RRDC" + bad[4:], "another letter": b"RRDc" + new[4:],
              "a log mark": marks.LOG + NOTES, "a short log mark": marks.LOG, "half a log mark": b"RRDLog" + NOTES,
              "a log mark without a change": marks.begun(new, 12_288) + NOTES,
              "a log of notes": marks.with_base(b"RRDI" + NOTES),
              "a log of a short database": marks.with_base(new[:16]),
              "a log behind the file": marks.LOG + marks.number(2**64 - 1) + NOTES,
              "a change that is not right": marks.with_base(new)[:-1] + b"x",
              "a log that makes a bad database": marks.logged(new, bad),
              "a log over a bad database": marks.with_base(bad),
              "another word": b"RRDUndo\0" + marks.number(4_096) + new[16:]}
    for name, held in others.items():
        for words in COMMANDS:
            t.put(held)
            status, out, err = t.told([words[0], FILE, *words[1:]],
                                      "last\nupdate 50:1\n" if words[0] == "batch" else "")
            t.check.same((status, out, err[:13]), (1, "", "ERROR: file: "),
                         f"{words}, a file of another program, {name}: {err!r}")
            t.check.same(t.held() == held, True,
                         f"the file of another program after {words}, {name}: {(t.held() or b'')[:20]!r}")
    t.put(new)


def test_interrupted(t: Runs) -> None:
    """Checks that each form of a file whose change was interrupted is read as the database that it stands for. A command that
    may change the file gives it that database's bytes, and one that reads leaves it alone. Without a log the database is
    the one with which the file begins."""
    t.run(["create", FILE, *CREATE])
    new = t.held()
    t.run(["update", FILE, "10:1"])
    held = t.held()
    for name, left in {"a cut mark": marks.cut(held),
                       "a length without its bytes": marks.cut(held).ljust(4_160, b"\0"),
                       "bytes that follow": marks.cut(held) + NOTES,
                       "a log without its mark": marks.uncommitted(held, new),
                       "a log of no change": marks.with_base(held), "a torn log": marks.logged(held, new)[:-1],
                       "a log": marks.logged(new, held), "a log over more": marks.logged(held + new, held),
                       "a log and more": marks.logged(new, held) + NOTES, "a log in its place": marks.placed(new, held),
                       "two changes": marks.with_change(marks.logged(held, new), len(held), (0, held[:150]),
                                                        (99, held[99:])),
                       "a change that is not cut": marks.uncut(new, held)}.items():
        for words, wanted in ((["last"], left), (["batch"], held), (["update", "5:1"], held), (["revert"], new)):
            t.put(left)
            status, out, err = t.told([words[0], FILE, *words[1:]], "last\n" if words[0] == "batch" else "")
            is_refused = words[0] == "update"
            told = (1, "", error("not later than 10") + f"rrdi: {LATER}\n") if is_refused else (0, "" if words[0] == "revert" else "10\n",
                                                                           "")
            t.check.same((status, out, err), told, f"{words} on a file with {name}")
            t.check.same(t.held() == wanted, True,
                         f"the file with {name} after {words}: {len(t.held())} bytes, {t.held()[:20]!r}")
    t.put(new)


def test_words_that_are_no_text(net: Runs) -> None:
    t = net
    for words in ([b"\xff"], [b"last", b"\xff"], [b"last", FILE.encode(), b"\xc3"], [b"batch", b"\xed\xa0\x80"]):
        t.same(words, 2, MISUSE)


def test_other_lengths(t: Runs) -> None:
    """Checks that a create replaces a file of any other length by the same file that it creates without a file."""
    new = {}
    for rows in (4, 300, 1_000, 2_100, 4_000):
        words = ["create", f"{rows} rows", *CREATE[:-1], f"RRA:LAST:0.5:1:{rows}"]
        t.run(words)
        new[rows] = t.held(words[1])
        t.check.same(new[rows] is not None, True, f"a file of {rows} rows is made")
    for old, held in new.items():
        for rows, wanted in new.items():
            t.put(held, "replaced")
            t.run(["create", "replaced", *CREATE[:-1], f"RRA:LAST:0.5:1:{rows}"])
            t.check.same(t.held("replaced") == wanted, True, f"a file of {old} rows, replaced by {rows}")


def test_longest_lines(t: Runs) -> None:
    samples = [f"{10 * number}:{number}" for number in range(1, 1201)]
    t.run(["create", "long", *CREATE])
    new = t.held("long")
    t.run(["update", "long", *samples])
    t.run(["fetch", "long", "LAST", "-s", "11980", "-e", "12000"],
          out="time: g\n11990: 1199.000000\n12000: 1200.000000\n12010: nan\n")
    t.run(["batch", "long"], 0, "12000\n0\n", "", f"last\nrevert\nlast\nupdate {' '.join(samples)}\n")
    t.run(["batch", "long"], 0, "12000\n", "", "last\nrevert\n")
    t.check.same(t.held("long"), new, "the file after 1,200 samples were reverted")
    most = definitions.Create(10, 0, 16, [definitions.Source(f"s{n}", "GAUGE", 100, None, None) for n in range(64)],
                              [definitions.Archive("MAX", 0, n + 1, 1000 - n) for n in range(64)])
    _, info = definitions.run(definitions.run(None, most)[0], definitions.Info())
    name, *words = str(most).split(" ")
    line = " ".join(words).rjust(65_536 - len(name))
    for more, status, text in [("", 0, ""), (" ", 1, "ERROR: usage\n")]:
        lines = f"{name}{more}{line}\ninfo\n"
        told = random_batches.text_of(info) if status == 0 else "ERROR: no database\n"
        t.run(["batch"], status, text + told, "", lines)
        t.run(["batch", f"most {status}"], status, text + told, "", lines)
    t.run(["create", "most words", *words])
    t.check.same(t.held("most words"), t.held("most 0"), "the file of 64 sources and 64 archives")


def test_most_samples(t: Runs) -> None:
    """Tries the maximum number of samples in a line of a batch, and more than that in the arguments of one command."""
    for count in (5_000, 7_000):
        samples = [f"{number}:1" for number in range(1, count + 1)]
        t.run(["create", "seconds", "--step", "1", "--start", "0", *CREATE[4:]])
        t.run(["update", "seconds", *samples])
        t.run(["batch", "seconds"], 0, f"{count}\n0\n{count}\n", "",
              f"last\nrevert\nlast\nupdate {' '.join(samples)}\nlast\n")
    samples = [f"{number}:1" for number in range(7_001, 60_001)]
    t.run(["update", "seconds", *samples])
    t.run(["last", "seconds"], out="60000\n")


def test_most_entries(t: Runs) -> None:
    """Tries a journal of the maximum depth, full, and reverted to its end."""
    depth = 100_000
    t.run(["create", "deep", "--journal", str(depth), *CREATE])
    updates = "".join(f"update {10 * number}:1\n" for number in range(1, depth + 3))
    t.run(["batch", "deep"], 0, "", "", updates)
    status, out, err = t.told(["info", "deep"])
    t.check.same((status, f"undoable = {depth}" in out.splitlines(), err), (0, True, ""), "the deepest journal, full")
    t.run(["update", "deep", f"{10 * depth + 30}:1"])
    t.run(["last", "deep"], out=f"{10 * depth + 30}\n")
    t.run(["batch", "deep"], 1, "30\n" + error("nothing to revert"), "", "revert\n" * depth + "last\nrevert\n")


def test_most_rows(t: Runs) -> None:
    rows = "".join(f"{time}: nan\n" for time in range(10, 10_000_001, 10))
    t.run(["create", "rows", *CREATE])
    fetch = ["fetch", "rows", "LAST", "-s", "0", "-e"]
    t.run([*fetch, "9999990"], out=f"time: g\n{rows}")
    t.run([*fetch, "10000000"], 1, err=error("span too long") + f"rrdi: {TOO_LONG}\n")
    t.run([*fetch, "9999990"], 1, err=error("write failed"), to="/dev/full")


# The arguments before an option, so that nothing else is missing.
BEFORE = {"fetch": ["LAST"], "resize": ["0", "GROW", "1"], "update": ["10:1"]}


def test_the_usage_text(t: Runs) -> None:
    page = (TOP / "docs/commands.md").read_text()
    _, _, text = t.told([])
    t.check.same(text.splitlines()[-1:], [f"rrdi {(TOP / 'VERSION').read_text().strip()}"],
                 "the version in the usage text")
    if not t.check("\ncommands:\n" in text, f"no commands in the usage text: {text!r}"):
        return
    forms = {name: {command: manual.plain(form) for command, form in found.items()}
             for name, found in (("usage", manual.in_usage(text)), ("page", manual.in_page(page)))}
    t.check.same(len(forms["page"]), 10, "the commands of docs/commands.md")
    t.check.same(forms["usage"], forms["page"], "the forms of the usage text and of docs/commands.md")
    definitions_of = re.compile(r"(?:DS|RRA):(?:\w|[|:])+")
    told = [line for line in text.splitlines() if line.strip().startswith(("a DEFINITION is ", "or RRA:"))]
    wanted = list(dict.fromkeys(form for form in definitions_of.findall(page) if form.endswith((":max", ":rows"))))
    t.check.same([manual.plain(form) for form in definitions_of.findall(" ".join(told))],
                 [manual.plain(form) for form in wanted],
           "the definitions of the usage text")
    for command, form in manual.in_page(page).items():
        letters = {letter for letter, _, _ in manual.options(form)}
        for letter in string.ascii_letters + string.digits:
            asks(t, command, f"-{letter}", letter in letters)
        for _, name, _ in manual.options(form):
            asks(t, command, f"--{name}", True)
            asks(t, command, f"--{name[:-1]}", False)
    the_words_of_the_usage_text(t, text, page + (TOP / "README.md").read_text())


def the_words_of_the_usage_text(t: Runs, text: str, pages: str) -> None:
    """Compares the usage text with the manuals: each word is in a manual or in the README, and each statement is the
    one that stands for words of docs/commands.md."""
    known = set(re.findall(r"[A-Za-z]+", pages))
    told = [word for word in re.findall(r"[A-Za-z]+", text) if not {word, word.lower()} & known]
    t.check.same(told, [], "words of the usage text that are missing from the manuals")
    t.check.same(manual.statements_of(text), " ".join(manual.STATEMENTS), "the statements of the usage text")
    page = " ".join(pages.split())
    for statement, words in manual.STATEMENTS.items():
        t.check.same(words in page, True, f"the manual says {words!r}, as the usage text says {statement!r}")


def asks(t: Runs, command: str, option: str, is_taken: bool) -> None:
    """Checks whether a command takes an option: the fault is then a value that cannot be read, or a missing file."""
    status, _, err = t.told([command, "no file", *BEFORE.get(command, []), option, "x"])
    t.check.same((status, err.startswith("ERROR: usage\n")), (1, False) if is_taken else (2, True),
                 f"{command} {option}")
