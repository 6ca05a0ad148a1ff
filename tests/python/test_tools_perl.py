# SPDX-License-Identifier: MIT OR Apache-2.0
"""Tests of perl/RRDs.pm: its results compared with those of RRDtool's own module, and its one process."""
from __future__ import annotations

import os
import re
import shutil
import signal
import subprocess
import unittest
from typing import Dict, Optional

from cases import needs_program
from doubles import PROGRAM, TOP
from tool_case import Ran, ToolCase

PERL = shutil.which("perl")
SHOW = r"""
use RRDs;
use strict;
sub text { my ($v) = @_; return !defined $v ? 'undef' : ref $v eq 'ARRAY' ? '[' . join(', ', map { text($_) } @$v) . ']'
    : ref $v eq 'HASH' ? '{' . join(', ', map { "$_=" . text($v->{$_}) } sort keys %$v) . '}' : "$v" }
sub show { my ($name, @found) = @_;
    print "$name: ", join('; ', map { text($_) } @found), '; error ', text(RRDs::error()), "\n" }
"""
CALLS = SHOW + r"""
show create => RRDs::create('r.rrd', '-s', 10, '-b', 1000000000, 'DS:g:GAUGE:60:0:U', 'DS:c:COUNTER:60:U:U',
    'RRA:AVERAGE:0.5:1:5', 'RRA:MAX:0.5:3:4');
show update => RRDs::update('r.rrd', '1000000010:1.5:100');
show update => RRDs::update('r.rrd', '--template', 'c:g', '1000000025:130:2.5e0');
show late => RRDs::update('r.rrd', '5:2.5:130');
show updatev => RRDs::updatev('r.rrd', '1000000040:2:160');
show last => RRDs::last('r.rrd');
show first => RRDs::first('r.rrd');
show first => RRDs::first('r.rrd', '--rraindex', 1);
show none => RRDs::last('none');
show none => RRDs::fetch('none', 'AVERAGE');
show none => RRDs::info('none');
show none => RRDs::updatev('none', 'N:1');
show fetch => RRDs::fetch('r.rrd', 'AVERAGE', '-s 1000000000', '-e 1000000040');
show fetch => RRDs::fetch('r.rrd', 'MAX', '--start', 1000000000, '--end', 1000000000);
show fetch => RRDs::fetch('r.rrd', 'AVERAGE', '--start=1000000009', '--end=1000000019');
show list => scalar RRDs::last('r.rrd');
my $info = RRDs::info('r.rrd');
# The layout of the file is each program's own.
delete $info->{$_} for 'header_size', 'rra[0].cur_row', 'rra[1].cur_row';
show info => $info;
show tune => RRDs::tune('r.rrd', '-a', 'g:5', '-a', 'c:5', '-d', 'g:GAUGE');
show times => RRDs::times('end-1h', '1000000000');
show wrong => RRDs::fetch('r.rrd', 'FOO');
"""
PICTURES = SHOW + r"""
RRDs::create('r.rrd', '-s', 10, '-b', 1000000000, 'DS:g:GAUGE:60:0:U', 'RRA:AVERAGE:0.5:1:9', 'RRA:MAX:0.5:3:4');
RRDs::update('r.rrd', map { 1000000000 + 10 * $_ . ":$_" } 1 .. 8);
my @span = ('-s', 1000000000, '-e', 1000000070);
show graph => RRDs::graph('o.png', @span, 'DEF:a=r.rrd:g:AVERAGE', 'LINE1:a#ff0000', 'PRINT:a:MAX:%lf',
    'PRINT:a:MIN:it\'s "%lf"');
show graph => RRDs::graph('o.png', @span, 'DEF:a=r.rrd:g:AVERAGE', 'LINE1:a#ff0000:a b', "--title=a  b");
show graphv => RRDs::graphv('o.png', @span, 'DEF:a=r.rrd:g:MAX', 'LINE1:a#ff0000', 'PRINT:a:MAX:%lf');
my $found = RRDs::graphv('-', @span, 'DEF:a=r.rrd:g:MAX', 'LINE1:a#ff0000', 'PRINT:a:MAX:%lf');
show image => unpack '%32C*', $found->{image};
show xport => RRDs::xport(@span, 'DEF:a=r.rrd:g:AVERAGE', 'DEF:b=r.rrd:g:MAX', 'XPORT:a:hi', 'XPORT:b');
show none => RRDs::graph('o.png', @span, 'DEF:a=none:g:AVERAGE', 'LINE1:a#ff0000');
show none => RRDs::xport(@span, 'DEF:a=none:g:AVERAGE', 'XPORT:a');
"""


def has_module() -> bool:
    return bool(PERL) and subprocess.run([str(PERL), "-MRRDs", "-e", "exit !!RRDs->can(q(_ask))"], capture_output=True).returncode == 0


@needs_program
@unittest.skipUnless(PERL, "perl is not installed")
class PerlCase(ToolCase):
    def perl(self, script: str, env: Optional[Dict[str, str]] = None, is_ours: bool = True) -> Ran:
        assert PERL
        library = [f"-I{TOP}/perl"] if is_ours else []
        return self.run_command([PERL, "-w", *library, "-e", script], env=env)


@unittest.skipUnless(has_module(), "RRDtool's module RRDs is not installed")
class BesideRRDs(PerlCase):
    def compare(self, script: str) -> str:
        real = self.perl(script, is_ours=False)
        (self.folder / "r.rrd").rename(self.folder / "real.rrd")
        ours = self.perl(script)
        self.assertEqual((real.err, ours.err), ("", ""))
        self.assertEqual(ours.out, real.out)
        return ours.out

    def test_calls(self) -> None:
        self.assertEqual(len(self.compare(CALLS).splitlines()), 20)

    def test_pictures(self) -> None:
        self.assertEqual(len(self.compare(PICTURES).splitlines()), 7)
        self.assertEqual(self.read("r.rrd")[:4], b"RRDI")


@unittest.skipUnless(PERL, "perl is not installed")
class ForStandardOutput(ToolCase):
    def test_a_picture_that_takes_the_place_of_a_file(self) -> None:
        """The module reads the new file, and not the empty one that it made."""
        assert PERL
        tool = self.stub("rrdi-rrdtool", "read name file words\nprintf picture > new\nmv new $file\nprintf 'OK 5\\n10x20'")
        for script in ("$\\ = 'x'; RRDs::graph('-', 'LINE1')", "print RRDs::graphv('-', 'LINE1')->{image}"):
            ran = self.run_command([PERL, f"-I{TOP}/perl", "-MRRDs", "-e", script], env={"RRDI_RRDTOOL": tool})
            self.assertEqual(ran, Ran(0, "picture", ""))


# Each call of the system is interrupted as often as the argument says, and then reads or writes one byte.
INTERRUPTED = r"""
use Errno qw(EINTR);
our ($calls, $most) = (0, $ARGV[0]);
sub one { $! = EINTR; return $calls++ % ($most + 1) == $most ? 1 : undef }
BEGIN {
    *CORE::GLOBAL::syswrite = sub (*$;$$) { return one() };
    *CORE::GLOBAL::read = sub (*\$$;$) { my $got = one(); ${$_[1]} .= 'x' if $got; return $got };
}
use RRDs;
print RRDs::_write(undef, 'abc'), " $calls";
$calls = 0;
print ' ', RRDs::_bytes(undef, 3) // 'none', " $calls\n";
"""


@unittest.skipUnless(PERL, "perl is not installed")
class Interruptions(unittest.TestCase):
    def test_calls_that_are_interrupted(self) -> None:
        """A call is repeated up to 1,000 times in a row."""
        for most, printed in ((0, "1 3 xxx 3"), (1, "1 6 xxx 6"), (1_000, "1 3003 xxx 3003"), (1_001, "0 1001 none 1001")):
            ran = subprocess.run([str(PERL), "-w", f"-I{TOP}/perl", "-e", INTERRUPTED, str(most)], stdout=subprocess.PIPE,
                                 stderr=subprocess.PIPE, universal_newlines=True)
            self.assertEqual((ran.stdout, ran.stderr), (f"{printed}\n", ""))


class Module(PerlCase):
    def setUp(self) -> None:
        super().setUp()
        self.create("f.rrdi", "DS:g:GAUGE:100:U:U", "RRA:AVERAGE:0.5:1:9")

    def lines(self, script: str, env: Optional[Dict[str, str]] = None) -> "list[str]":
        ran = self.perl(SHOW + script, env)
        self.assertEqual((ran.status, ran.err), (0, ""))
        return ran.out.splitlines()

    def test_version(self) -> None:
        self.assertEqual(self.perl("use RRDs; print $RRDs::VERSION").out, "1.7002")

    def test_what_rrdtools_module_lacks(self) -> None:
        self.assertEqual(self.lines(r"""
RRDs::update('f.rrdi', '10:1.5', '20:2');
show lastupdate => RRDs::lastupdate('f.rrdi');
show resize => RRDs::resize('f.rrdi', 0, 'GROW', 5);
show dump => RRDs::dump('f.rrdi');
show last => RRDs::last('f.rrdi');
"""), ["lastupdate: 20; [g]; [2]; error undef", "resize: 1; error undef",
       "dump: undef; error dump is not supported on rrdi's files", "last: 20; error undef"])
        self.assertIn("rra[0].rows = 14", self.rrdi("info", "resize.rrd"))

    def test_all_digits(self) -> None:
        self.assertEqual(self.lines(r"""
RRDs::update('f.rrdi', '10:123456789.123457', '20:123456789.123457');
my (undef, undef, undef, $rows) = RRDs::fetch('f.rrdi', 'AVERAGE', '-s', 'epoch+10s', '-e', 'epoch+11s');
printf "%.6f\n", $rows->[0][0];
"""), ["123456789.123457"])

    def counting(self) -> Dict[str, str]:
        """Returns an environment in which the file `starts` has a line for each process that RRDs starts."""
        return {"RRDI_RRDTOOL": self.stub("counted", f'echo x >>{self.folder}/starts; exec {TOP}/tools/rrdi-rrdtool "$@"')}

    def test_one_process(self) -> None:
        self.assertEqual(self.lines("RRDs::update('f.rrdi', 10 * $_ . ':1') for 1 .. 20; show last => RRDs::last('f.rrdi');",
                                    self.counting()), ["last: 200; error undef"])
        self.assertEqual(self.read("starts"), b"x\n")

    def test_a_fork_has_a_process_of_its_own(self) -> None:
        lines = self.lines(r"""
$| = 1;
RRDs::last('f.rrdi');
my @children = map { my $number = $_; my $pid = fork; if (!$pid) {
    RRDs::create("c$number.rrdi", '-b', 1000000000, 'DS:g:GAUGE:9:U:U', 'RRA:MAX:0.5:1:4');
    my $wrong = 0;
    for my $at (1 .. 20) {
        my $time = 1000000000 + 1000 * $number + $at;
        RRDs::update("c$number.rrdi", "$time:1");
        $wrong++ if RRDs::error() or RRDs::last("c$number.rrdi") != $time;
    }
    exit $wrong } $pid } 1 .. 3;
for (@children) { waitpid $_, 0; show status => $? }
show last => map { RRDs::last("c$_.rrdi") } 1 .. 3;
""", self.counting())
        self.assertEqual(lines, ["status: 0; error undef"] * 3 + ["last: 1000001020; 1000002020; 1000003020; error undef"])
        # Whether the children disturb each other is a matter of chance.
        self.assertEqual(self.read("starts"), b"x\n" * 4)

    def test_signals_that_the_program_ignores(self) -> None:
        """The process ignores none: it waits for children of its own."""
        stub = self.stub("mask", "grep SigIgn /proc/self/status >mask")
        self.perl("use RRDs; $SIG{$_} = 'IGNORE' for qw(PIPE CHLD ALRM); RRDs::last('f');", {"RRDI_RRDTOOL": stub})
        ignored = int(self.read("mask").split()[1], 16)
        self.assertEqual([number for number in (signal.SIGPIPE, signal.SIGCHLD, signal.SIGALRM) if ignored >> number - 1 & 1], [])

    def test_directories(self) -> None:
        (self.folder / "a b'c").mkdir()
        self.assertEqual(self.lines(r"""
RRDs::last('f.rrdi'); chdir q(a b'c);
show there => RRDs::last('f.rrdi'); show above => RRDs::last('../f.rrdi'); chdir '..'; show here => RRDs::last('f.rrdi');
"""), ["there: undef; error opening 'f.rrdi': No such file or directory", "above: 0; error undef", "here: 0; error undef"])

    def test_a_library_by_a_path_of_the_first_directory(self) -> None:
        """The program beside the module is found by a relative -I, also if the first call is in another directory."""
        assert PERL
        (self.folder / "there").mkdir()
        script = "use RRDs; chdir 'there'; print RRDs::last('../f.rrdi') // RRDs::error()"
        ran = self.run_command([PERL, "-w", "-I" + os.path.relpath(f"{TOP}/perl", self.folder), "-e", script])
        self.assertEqual((ran.out, ran.err), ("0", ""))

    def test_a_time_zone_that_changes(self) -> None:
        self.assertEqual(self.lines(r"""
$ENV{TZ} = 'UTC'; show utc => RRDs::times('noon 20240101', 'start+1h');
$ENV{TZ} = 'XXX-5'; show east => RRDs::times('noon 20240101', 'start+1h');
"""), ["utc: 1704110400; 1704114000; error undef", "east: 1704092400; 1704096000; error undef"])

    def test_variables_that_change(self) -> None:
        """A process has the variables of its start, so each one on which its answers depend needs another process when it is
        set, changed or removed; no other variable does."""
        # It answers each line with the text 0.
        stub = self.stub("answers", f"echo x >>{self.folder}/starts; while read -r line; do printf 'OK 1\\n0'; done")
        ask = "RRDs::last('f.rrdi'); RRDs::last('f.rrdi'); die RRDs::error() if RRDs::error();"
        for names, count in ((("TZ", "RRDI", "RRDI_LIBRARY", "RRDI_SYNC", "RRDI_WAIT", "LANG", "LC_ALL", "LC_TIME", "LC_CTYPE"), 4), (("OTHER",), 1)):
            for name in names:
                self.write("starts", "")
                changes = (f"delete $ENV{{{name}}};", f"$ENV{{{name}}} = '5';", f"$ENV{{{name}}} = '6';", f"delete $ENV{{{name}}};")
                self.lines(" ".join(f"{change} {ask}" for change in changes), {"RRDI_RRDTOOL": stub})
                self.assertEqual(len(self.read("starts").split()), count, name)

    def test_words_of_all_kinds(self) -> None:
        for name in ("a b", "it's", 'q"q', "it's \"both\"", "back\\slash", "\u00e4\u20ac"):
            with self.subTest(name=name):
                shutil.copyfile(self.folder / "f.rrdi", self.folder / f"{name}.rrdi")
                quoted = name.replace("\\", "\\\\").replace("'", "\\'")
                self.assertEqual(self.lines(f"use utf8; show last => RRDs::last('{quoted}.rrdi');"), ["last: 0; error undef"])

    def test_a_call_that_is_broken_off(self) -> None:
        slow = self.stub("slow", f'case $2 in */slow.rrdi|slow.rrdi) sleep 5 ;; esac; exec {PROGRAM} "$@"')
        lines = self.lines(r"""
my $last = eval { local $SIG{ALRM} = sub { die "late\n" }; alarm 1; RRDs::last('slow.rrdi') };
print "broken off: $@"; alarm 0;
show last => RRDs::last('f.rrdi');
""", {"RRDI": slow})
        self.assertEqual(lines, ["broken off: late", "last: 0; error undef"])

    def test_programs_that_end(self) -> None:
        self.assertEqual(self.lines("show last => RRDs::last('f.rrdi'); show again => RRDs::last('f.rrdi')",
                                    {"RRDI_RRDTOOL": "/nowhere"}),
                         ["last: undef; error /nowhere ended; is it installed?",
                          "again: undef; error /nowhere ended; is it installed?"])
        ends = self.stub("ends", "read line; exit 3")
        self.assertEqual(self.lines("show last => RRDs::last('f.rrdi')", {"RRDI_RRDTOOL": ends}),
                         [f"last: undef; error {ends} ended; is it installed?"])
        self.assertEqual(self.lines("show last => RRDs::last('f.rrdi')", {"RRDI": "/nowhere"}),
                         ["last: undef; error cannot run /nowhere: No such file or directory"])

    def test_no_room_for_a_process(self) -> None:
        """A call says so, and the next one tries again."""
        assert PERL
        script = r"""
BEGIN { $main::lacks = 1; *CORE::GLOBAL::fork = sub () { return CORE::fork() unless $main::lacks; $! = 11; return undef } }
""" + SHOW + r"""
show fork => RRDs::last('f.rrdi');
my @files; while (open my $file, '<', '/dev/null') { push @files, $file }
show none => RRDs::last('f.rrdi');
splice @files, -2;
show one => RRDs::last('f.rrdi');
(@files, $main::lacks) = ();
show last => RRDs::last('f.rrdi');
"""
        ran = self.run_command(["sh", "-c", 'ulimit -n 64; exec "$@"', "sh", PERL, "-w", f"-I{TOP}/perl", "-e", script])
        self.assertEqual((ran.err, ran.out.splitlines()), ("", [
            "fork: undef; error fork: Resource temporarily unavailable", "none: undef; error pipe: Too many open files",
            "one: undef; error pipe: Too many open files", "last: 0; error undef"]))

    def test_the_status_of_the_program_stays(self) -> None:
        self.assertEqual(self.perl("use RRDs; RRDs::last('f.rrdi'); exit 7").status, 7)
        script = "RRDs::last('f.rrdi'); system 'exit 3; true'; RRDs::last('f.rrdi'); print $? >> 8, qq(\\n)"
        self.assertEqual(self.lines(script), ["3"])

    def test_the_ends_of_the_callers_lines(self) -> None:
        """A program that reads a whole file has none, and may call meanwhile."""
        for ends in ("undef", "''", "'x'", r"\1"):
            with self.subTest(ends=ends):
                self.assertEqual(self.lines(f"{{ local $/ = {ends}; show last => RRDs::last('f.rrdi'); }}"), ["last: 0; error undef"])

    def test_a_tied_output(self) -> None:
        ran = self.perl(r"""
package Kept; sub TIEHANDLE { bless [] } sub PRINT { my $s = shift; push @$s, @_ } sub FILENO { undef }
package main; use RRDs; tie *STDOUT, 'Kept'; my $last = RRDs::last('f.rrdi'); untie *STDOUT; print "$last\n";
""")
        self.assertEqual((ran.out, ran.err), ("0\n", ""))

    def test_taint_mode(self) -> None:
        """The environment chooses no program then, nor what Python runs; rrdi is the one of the system, which may not be there."""
        assert PERL
        script = "use RRDs; print RRDs::last('f.rrdi') // RRDs::error()"
        self.write("sitecustomize.py", "import os\nos.write(1, b'chosen')\n")
        ran = self.run_command([PERL, "-T", f"-I{TOP}/perl", "-e", script],
                               env={"RRDI_RRDTOOL": "/nowhere", "PYTHONPATH": str(self.folder)})
        self.assertEqual((ran.status, ran.err), (0, ""))
        self.assertIn(ran.out, ("0", "cannot run rrdi: No such file or directory"))

    def test_numbers_in_taint_mode(self) -> None:
        """Whether to flush and how long to wait are passed on; what is no number is not."""
        assert PERL
        for name in ("perl", "tools"):
            (self.folder / name).mkdir()
        shutil.copy(f"{TOP}/perl/RRDs.pm", self.folder / "perl")
        program = self.folder / "tools/rrdi-rrdtool"
        program.write_text(f"#!/bin/sh\nenv | grep ^RRDI | sort >'{self.folder}/seen'\n")
        program.chmod(0o755)
        for given, seen in (({"RRDI_SYNC": "1", "RRDI_WAIT": "20", "RRDI": "/nowhere"}, b"RRDI_SYNC=1\nRRDI_WAIT=20\n"),
                            ({"RRDI_SYNC": "1\n", "RRDI_WAIT": "-1"}, b"")):
            self.run_command([PERL, "-T", f"-I{self.folder}/perl", "-e", "use RRDs; RRDs::last('f.rrdi')"], env=given)
            self.assertEqual(self.read("seen"), seen)

    def test_a_program_that_ignores_its_children(self) -> None:
        """What rrdi ends with is known all the same."""
        assert PERL
        ran = self.run_command([PERL, f"-I{TOP}/perl", "-e", "use RRDs; $SIG{CHLD} = 'IGNORE'; RRDs::update('f.rrdi', '9000000000:1:1'); print RRDs::error()"],
                               env={"RRDI": "/bin/false"})
        self.assertIn("ended with status 1", ran.out)

    def test_it_can_be_read_as_a_page(self) -> None:
        ran = self.run_command(["podchecker", f"{TOP}/perl/RRDs.pm"])
        self.assertEqual(ran.status, 0, ran.err)
        self.assertTrue(re.search("pod syntax OK", ran.err), ran.err)
