# SPDX-License-Identifier: MIT OR Apache-2.0
"""Tests of the answers of rrdi-rrdtool's pipe mode and of perl/RRDs.pm: no text of a user reads as an answer."""
from __future__ import annotations

import shutil
import subprocess
import sys
import unittest
from typing import Dict, List

from doubles import PROGRAM, TOP
from tool_case import Ran, ToolCase

from rrdi.tools.rrdtool_output import Printed, guarded, lines_of, plain, with_lengths

CC, PERL = shutil.which("cc"), shutil.which("perl")
# Texts that read as the end of an answer, whole or in one of their lines. PRINT makes a line feed of %n.
HOSTILE = ["ERROR: 1.5", "OK u:0.00 s:0.00 r:0.00", "OK", "ERROR", "x%nERROR: y", "x%nOK u:0.00 s:0.00 r:0.00%n5", "OK 1%n5",
           "print[0] = %nimage_width = 7", "%n%n", ""]
TIMES = "times 'noon 20240101' start+1h"


class Forms(unittest.TestCase):
    def test_rrdtools_form(self) -> None:
        picture = b"\nOK\nERROR: 1\n"
        printed: Printed = ["1x1", "OK u:0.00", "a\nERROR: b\nc", "", "an OK", picture]
        self.assertEqual(plain(printed), b"1x1\nOK u:0.00\na\nERROR: b\nc\n\nan OK\n" + picture)
        self.assertEqual(guarded(printed), b"1x1\n OK u:0.00\na\n ERROR: b\nc\n\nan OK\n" + picture)
        self.assertEqual((guarded([]), lines_of(""), lines_of("a\n\nb\n")), (b"", [], ["a", "", "b"]))

    def test_the_form_with_lengths(self) -> None:
        self.assertEqual(with_lengths("OK", []), b"OK\n")
        self.assertEqual(with_lengths("OK", ["a\nOK", "", "\u00e4\udcff", b"\x00\n"]), b"OK 4 0 3 2\na\nOK\xc3\xa4\xff\x00\n")
        self.assertEqual(with_lengths("ERROR", ["none"]), b"ERROR 4\nnone")


@unittest.skipUnless(CC, "there is no C compiler cc")
class GrapherCase(ToolCase):
    """Tests with a library in RRDtool's place that prints any text."""

    def setUp(self) -> None:
        super().setUp()
        assert CC
        source = TOP / "tests/python/grapher.c"
        subprocess.run([CC, "-shared", "-fPIC", "-o", self.folder / "librrd.so.8", source], check=True)
        self.env["LD_LIBRARY_PATH"] = str(self.folder)

    @staticmethod
    def prints() -> List[str]:
        return ["PRINT:a:" + text.replace(":", "\\:") for text in HOSTILE]

    def line(self, command: str, picture: str) -> str:
        return f"{command} {picture} " + " ".join(f"'{word}'" for word in self.prints())


class WithGrapher(GrapherCase):
    """The pipe."""

    def pipe(self, line: str, *words: str) -> Ran:
        return self.tool("rrdi-rrdtool", *words, "-", given=f"{line}\n{TIMES}\n")

    def test_a_pipe(self) -> None:
        for command in ("graph", "graphv"):
            with self.subTest(command=command):
                lines = self.pipe(self.line(command, "p.png")).out.split("\n")
                ends = [line for line in lines if line.startswith(("OK", "ERROR"))]
                self.assertEqual(len(ends), 2, lines)
                self.assertEqual(lines[-3:-1], ["1704110400 1704114000", ends[1]])
        self.assertIn("\n ERROR: 1.5\n OK u:0.00 s:0.00 r:0.00\n OK\n ERROR\nx\n ERROR: y\nx\n OK u", self.pipe(
            self.line("graph", "p.png")).out)

    def test_a_pipe_with_lengths(self) -> None:
        texts = [text.replace("%n", "\n") for text in HOSTILE]
        self.assertEqual(self.pipe(self.line("graph", "p.png"), "--lengths"), Ran(
            0, (with_lengths("OK", ["3x2", *texts]) + with_lengths("OK", ["1704110400 1704114000"])).decode(), ""))
        picture = "\nERROR: a picture\nOK\n"
        self.assertTrue(self.pipe(self.line("graph", "-"), "--lengths").out.startswith(f"OK {len(picture)}\n{picture}OK 21\n17"))
        self.assertEqual(self.tool("rrdi-rrdtool", "--exact", "--lengths", "-", given="last\n").out, "ERROR 26\nUsage: rrdtool last <file>")

    def test_one_command_prints_as_rrdtool_does(self) -> None:
        ran = self.tool("rrdi-rrdtool", "graph", "p.png", *self.prints())
        self.assertEqual(ran.out, "".join(text + "\n" for text in ["3x2", *(text.replace("%n", "\n") for text in HOSTILE)]))


@unittest.skipUnless(PERL, "perl is not installed")
class PerlAnswers(GrapherCase):
    SHOW = r"""use RRDs; use strict; use Scalar::Util 'tainted';
sub text { my ($v) = @_; return !defined $v ? 'undef' : ref $v eq 'ARRAY' ? '[' . join('|', map { text($_) } @$v) . ']'
    : ref $v eq 'HASH' ? '{' . join('|', map { "$_=" . text($v->{$_}) } sort keys %$v) . '}' : tainted($v) ? "tainted $v" : $v }
sub show { my ($name, @found) = @_; print "$name: ", join('; ', map { text($_) } @found, RRDs::error()), "\n" }
"""
    NOW = "show times => RRDs::times('noon 20240101', 'start+1h');"
    SHOWN = "times: 1704110400; 1704114000; undef\n"

    def perl(self, script: str, *options: str, env: "Dict[str, str] | None" = None) -> str:
        assert PERL
        ran = self.run_command([PERL, *options, "-w", "-e", self.SHOW + script], env=env)
        self.assertEqual((ran.status, ran.err), (0, ""))
        return ran.out

    def test_pictures(self) -> None:
        words = ", ".join(f"'{word}'" for word in self.prints())
        texts = [text.replace("%n", "\n") for text in HOSTILE]
        ours = f"-I{TOP}/perl"
        self.assertEqual(self.perl(f"show graph => RRDs::graph('p.png', {words}); {self.NOW}", ours),
                         f"graph: [{'|'.join(texts)}]; 3; 2; undef\n{self.SHOWN}")
        found = self.perl(f"show graphv => RRDs::graphv('p.png', {words}); {self.NOW}", ours)
        pairs = sorted([("image_width", "3"), ("image_height", "2"), *((f"print[{at}]", text) for at, text in enumerate(texts))])
        self.assertEqual(found, "graphv: {" + "|".join(f"{key}={value}" for key, value in pairs) + "}; undef\n" + self.SHOWN)

    def test_a_picture_for_standard_output(self) -> None:
        """The bytes of a picture come as they are, also in a program whose output is UTF-8."""
        assert PERL
        draws = self.stub("draws", r"""read graph file rest
printf '\211PNG\r\n\377\200\n' >"$file"; printf 'OK 3\n3x2'; read line""")
        script = "binmode STDOUT, ':utf8'; RRDs::graph('-', 'LINE1:a'); binmode STDOUT, ':raw'; print 'end'"
        ran = self.run_command([PERL, f"-I{TOP}/perl", "-w", "-e", f"use RRDs; {script}"], env={"RRDI_RRDTOOL": draws},
                               stdout=str(self.folder / "out"))
        self.assertEqual((ran, self.read("out")), (Ran(0, "", ""), b"\x89PNG\r\n\xff\x80\nend"))

    def test_a_program_that_answers_in_another_form(self) -> None:
        for text in ("OK u:0.00 s:0.00 r:0.00", "ERROR: none", "5\\nOK 1\\n7", "OK 5\\n7", "OK -1\\n7", "", "OK 1 x\\n7",
                     "OK 100000000000\\n7"):
            odd = self.stub("odd", f"read line; printf '{text}\\n'")
            script = "show last => RRDs::last('f'); show again => RRDs::last('f');"
            self.assertEqual(self.perl(script, f"-I{TOP}/perl", env={"RRDI_RRDTOOL": odd}),
                             "".join(f"{name}: undef; {odd} ended; is it installed?\n" for name in ("last", "again")))

    def test_many_rows(self) -> None:
        texts = ["0 10", " a", "", *(f"{10 * at}: {at}.5" for at in range(1, 100_001))]
        self.write("answer", with_lengths("OK", list(texts)))
        many = self.stub("many", f"read line; cat {self.folder}/answer; read line")
        script = "my (undef, $step, $names, $rows) = RRDs::fetch('f', 'MAX'); show rows => $step, scalar @$rows, $rows->[-1];"
        self.assertEqual(self.perl(script, f"-I{TOP}/perl", env={"RRDI_RRDTOOL": many}), "rows: 10; 100000; [100000.5]; undef\n")

    def test_words_make_no_line(self) -> None:
        """The words of a call, and the name of its directory, stay one line."""
        (self.folder / "a\nquit\nmkdir made\n'").mkdir()
        script = r"""RRDs::times('now', 'now'); chdir "a\nquit\nmkdir made\n'" or die;
show up => -d '../bin'; """ + self.NOW + r"""
show words => RRDs::times("now\nmkdir made\n'\"", 'now');
show again => RRDs::times('noon 20240101', 'start+1h'); chdir '..'; """ + self.NOW
        self.assertEqual(self.perl(script, f"-I{TOP}/perl").splitlines(), [
            "up: 1; undef", self.SHOWN[:-1], "words: undef; cannot parse time: now mkdir made '\"",
            "again: 1704110400; 1704114000; undef", self.SHOWN[:-1]])
        self.assertEqual([path for path in self.folder.rglob("made")], [])

    def test_an_undefined_word(self) -> None:
        """It is an empty word, without a warning."""
        self.assertEqual(self.perl("show none => RRDs::times(undef, 'now'); " + self.NOW, f"-I{TOP}/perl"),
                         "none: undef; cannot parse time: \n" + self.SHOWN)

    def test_rrdp(self) -> None:
        """RRDtool's own module for pipes gets each command's answer."""
        assert PERL
        if subprocess.run([PERL, "-MRRDp", "-e", "1"], capture_output=True).returncode:
            self.skipTest("Perl's RRDp is not installed")
        ran = self.run_command([PERL, "-MRRDp", "-e", r"""$RRDp::error_mode = 'catch'; RRDp::start(shift);
for (@ARGV) { RRDp::cmd($_); my $found = RRDp::read(); print defined $found ? $$found : "$RRDp::error\n" }""",
                                f"{TOP}/tools/rrdi-rrdtool", self.line("graph", "p.png"), TIMES, "cd none", TIMES])
        self.assertEqual((ran.status, ran.err), (0, ""))
        self.assertTrue(ran.out.startswith("3x2\n ERROR: 1.5\n OK u:0.00"), ran.out)
        self.assertTrue(ran.out.endswith("\n1704110400 1704114000\nERROR: chdir none No such file or directory\n"
                                         "1704110400 1704114000\n"), ran.out)

    def test_a_call_in_a_handler(self) -> None:
        """The call that was interrupted fails, and the next ones get their own answers."""
        slow = self.stub("slow", """read line
case $line in *slow*) printf 'OK 5\\n1'; kill -ALRM $PPID; exec sleep 60 ;; esac; printf 'OK 1\\n7'; read line""")
        script = r"""local $SIG{ALRM} = sub { show inner => RRDs::last('f') }; $| = 1;
show outer => RRDs::last('slow'); show last => RRDs::last('f');"""
        self.assertEqual(self.perl(script, f"-I{TOP}/perl", env={"RRDI_RRDTOOL": slow}),
                         f"inner: 7; undef\nouter: undef; {slow} ended; is it installed?\nlast: 7; undef\n")

    def test_a_call_in_a_handler_before_the_answer(self) -> None:
        """The call that was interrupted takes no answer of the process that the handler has begun."""
        late = self.stub("late", "read line; printf 'OK 1\\n7'; sleep 1; printf 'OK 1\\n8'; read line")
        script = r"""local $SIG{ALRM} = sub { show inner => RRDs::last('f') }; $| = 1; my ($read, $count) = (\&RRDs::_read, 1);
{ no warnings 'redefine'; *RRDs::_read = sub { kill ALRM => $$ if $count-- > 0; $read->(@_) } }
show outer => RRDs::last('f'); show last => RRDs::last('f');"""
        self.assertEqual(self.perl(script, f"-I{TOP}/perl", env={"RRDI_RRDTOOL": late}),
                         f"inner: 7; undef\nouter: undef; {late} ended; is it installed?\nlast: 7; undef\n")

    def installed(self) -> str:
        """Installs the module with a program beside it, as `make install` does: in taint mode only that one is run."""
        (self.folder / "perl").mkdir()
        (self.folder / "tools").mkdir()
        shutil.copy(TOP / "perl/RRDs.pm", self.folder / "perl")
        stub = self.stub("tool", f"RRDI={PROGRAM or 'rrdi'} RRDI_WAIT=0 TZ=UTC LD_LIBRARY_PATH={self.folder}\n"
                         f"export RRDI RRDI_WAIT TZ LD_LIBRARY_PATH\nexec {sys.executable} {TOP}/tools/rrdi-rrdtool \"$@\"")
        shutil.move(stub, self.folder / "tools/rrdi-rrdtool")
        return f"-I{self.folder}/perl"

    def test_taint_mode(self) -> None:
        """Numbers, names and settings are not tainted, as those of RRDtool's own module; a text of PRINT is."""
        self.assertEqual(self.perl(self.NOW, "-T", self.installed()), self.SHOWN)
        self.assertEqual(self.perl("show graph => RRDs::graph('p.png', 'PRINT:a:x'); " + self.NOW, "-T", f"-I{self.folder}/perl"),
                         "graph: [tainted x]; 3; 2; undef\n" + self.SHOWN)

    def test_the_environment_in_taint_mode(self) -> None:
        """Nothing is passed on that would choose a program, or load code into one."""
        self.installed()
        environment = self.folder / "environment"
        shutil.move(self.stub("shows", f"env >{environment}\nread line; printf 'OK 1\\n7'; read line"), self.folder / "tools/rrdi-rrdtool")
        kept = {"TZ": "UTC", "HERE": "x"}
        dropped = {name: str(self.folder / "none") for name in ("LD_LIBRARY_PATH", "LD_AUDIT_OF_NOTHING", "PYTHONPATH", "PYTHONHOME",
                                                                "RRDI", "RRDI_LIBRARY", "BASH_ENV", "ENV", "CDPATH")}
        self.assertEqual(self.perl("show last => RRDs::last('f');", "-T", f"-I{self.folder}/perl", env={**kept, **dropped}),
                         "last: 7; undef\n")
        found = dict(line.split("=", 1) for line in environment.read_text().splitlines() if "=" in line)
        self.assertEqual([name for name in dropped if name in found], [])
        self.assertEqual({name: found.get(name) for name in [*kept, "PATH"]}, {**kept, "PATH": "/usr/local/bin:/usr/bin:/bin"})

    @unittest.skipUnless(PROGRAM, "rrdi not found")
    def test_taint_mode_on_a_database(self) -> None:
        found = self.perl(r"""
show create => RRDs::create('r.rrd', '-s', 10, '-b', 1000000000, 'DS:g:GAUGE:60:0:U', 'RRA:AVERAGE:0.5:1:5');
show updatev => RRDs::updatev('r.rrd', '1000000010:1.5');
show last => RRDs::last('r.rrd'), RRDs::first('r.rrd');
show lastupdate => RRDs::lastupdate('r.rrd');
show fetch => RRDs::fetch('r.rrd', 'AVERAGE', '-s', 1000000000, '-e', 1000000010);
show info => RRDs::info('r.rrd');
""", "-T", self.installed())
        self.assertNotIn("tainted", found)
        self.assertIn("updatev: {[1000000010]RRA[AVERAGE][1]DS[g]=1.5|return_value=0}; undef\nlast: 1000000010; 999999970; undef\n"
                      "lastupdate: 1000000010; [g]; [1.5]; undef\nfetch: 1000000010; 10; [g]; [[1.5]|[undef]]; undef\n", found)
