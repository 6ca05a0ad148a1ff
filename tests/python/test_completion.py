# SPDX-License-Identifier: MIT OR Apache-2.0
"""Tests of the completions of bash in examples/: what they propose, and that no typed word is run."""
from __future__ import annotations

import shutil
import unittest
from typing import List

from doubles import TOP
from tool_case import ToolCase

BASH = shutil.which("bash")
INFO = "step = 10\\nds[0].name = in\\nds[1].name = out\\nrra[0].cf = MAX\\nrra[1].cf = LAST\\n"
# Words that run `touch ran` if a shell evaluates them.
RUNNING = ["$(touch${IFS}ran)", "`touch${IFS}ran`", "${x[$(touch${IFS}ran)]}", "$((x[$(touch${IFS}ran)]))", "<(touch${IFS}ran)",
           "~$(touch${IFS}ran)", "\"$(touch${IFS}ran)", "{$(touch${IFS}ran),b}"]
# Bash calls the function of the completion with these variables.
CALL = """. {top}/examples/{file}
COMP_LINE=$1
COMP_POINT=${{#1}}
read -ra COMP_WORDS <<<"$1"
case $1 in *[[:space:]]) COMP_WORDS+=('') ;; esac
COMP_CWORD=$((${{#COMP_WORDS[@]}} - 1))
{function}
((${{#COMPREPLY[@]}} == 0)) || printf '%s\\n' "${{COMPREPLY[@]}}"
"""


@unittest.skipUnless(BASH, "bash is not installed")
class Completion(ToolCase):
    def setUp(self) -> None:
        super().setUp()
        self.stub("rrdi", f"printf '{INFO}'")
        self.write("some.rrdi", "")

    def complete(self, file: str, function: str, line: str) -> List[str]:
        assert BASH
        script = CALL.format(top=TOP, file=file, function=function)
        ran = self.run_command([BASH, "--norc", "-c", script, "bash", line])
        self.assertEqual((ran.status, ran.err), (0, ""), line)
        return ran.out.splitlines()

    def rrdi_completes(self, line: str) -> List[str]:
        return self.complete("rrdi.bash", "_rrdi", line)

    def test_choices(self) -> None:
        for line, words in (
                ("rrdi l", "last lastupdate"), ("rrdi info some.r", "some.rrdi"), ("rrdi create new.rrdi DS:g:G", "GAUGE:"),
                ("rrdi create new.rrdi DS:g:GAUGE:60:", "U:"), ("rrdi create new.rrdi DS:g:GAUGE:60:U:", "U"),
                ("rrdi create new.rrdi RRA:", "AVERAGE: MIN: MAX: LAST:"), ("rrdi create new.rrdi DS:g:GAUGE:", ""),
                ("rrdi create new.rrdi --s", "--step --start"), ("rrdi fetch some.rrdi A", "AVERAGE"),
                ("rrdi fetch some.rrdi AVERAGE --r", "--resolution"), ("rrdi update some.rrdi --template in:o", "out"),
                ("rrdi tune some.rrdi -d out:C", "COUNTER"), ("rrdi tune some.rrdi -a o", "out: out:U"),
                ("rrdi tune some.rrdi --heartbeat ", "in: out:"), ("rrdi tune some.rrdi DELRRA:", "0 1"),
                ("rrdi tune some.rrdi RRA:M", "MIN: MAX:"), ("rrdi tune some.rrdi --m", "--minimum --maximum"),
                ("rrdi resize some.rrdi ", "0 1"), ("rrdi resize some.rrdi 1 G", "GROW"), ("rrdi first some.rrdi ", "--rraindex"),
                ("rrdi first some.rrdi --rraindex ", "0 1"), ("rrdi info some.rrdi > so", "some.rrdi"),
                ("rrdi batch none.rrdi <so", "some.rrdi"), ("rrdi info some.rrdi 2>>so", "some.rrdi"),
                ("rrdi resize none.rrdi ", "")):
            with self.subTest(line=line):
                self.assertEqual(self.rrdi_completes(line), words.split())

    def test_choices_of_tools(self) -> None:
        self.write("some.rrd", "")
        self.write("complete", "")
        for line, words in (
                ("rrdi-import so", "some.rrd some.rrdi"), ("rrdi-import --j", "--journal --jobs"), ("rrdi-import --journal ", ""),
                ("rrdi-import --jobs ", ""), ("rrdi-import --in", "--into --in-place"), ("rrdi-import --into comp", ""),
                ("rrdi-export some", "some.rrdi some.rrd"), ("rrdi-export --in", "--into --in-place"), ("rrdi-export --jobs ", ""),
                ("rrdi-export --into comp", ""), ("rrdi-compare some.rrd --h", "--help"),
                ("rrdi-check so", "some.rrdi"), ("rrdi-check some.rrdi g --c", "--critical --changes"), ("rrdi-check f g --for ", ""),
                ("rrdi-check f g --changes some.rrdi", "some.rrdi"), ("rrdi-fix so", "some.rrdi"),
                ("rrdi-fix some.rrdi 10 --s", "--source --samples"), ("rrdi-fix some.rrdi --source ", ""),
                ("rrdi-fix some.rrdi 10 --samples some.rrdi", "some.rrdi"), ("rrdi-record --j", "--journal"),
                ("rrdi-graph some.rrdi --st", "--start"), ("rrdi-plot so", "some.rrdi"),
                ("rrdi-plot some.rrdi p.png M", "MIN MAX"), ("rrdi-plot some.rrdi p.png MAX --e", "--end"),
                ("rrdi-plot some.rrdi p.png --da", "--dark"), ("rrdi-plot some.rrdi p.png --title ", ""),
                ("rrdi-plot --ht", "--html"), ("rrdi-plot some.rrdi p.png --m", "--min --max"), ("rrdi-plot --html co", ""),
                ("rrdi-record so", "some.rrdi"), ("rrdi-record --memory so", "some.rrdi"), ("rrdi-record --n", "--network"),
                ("rrdi-feed --j", "--jobs"), ("rrdi-feed --jobs ", ""), ("rrdi-feed --h", "--help --held"),
                ("rrdi-feed --graphite . --r", "--rules"), ("rrdi-feed --graphite . --rules so", "some.rrd some.rrdi"),
                ("rrdi-carbon-cache st", "start stop status"), ("rrdi-carbon-cache --c", "--config"),
                ("rrdi-show so", "some.rrdi"), ("rrdi-show some.rrdi M", "MIN MAX"),
                ("rrdi-show some.rrdi MAX --j", "--json --journal"), ("rrdi-show --s", "--start"),
                ("rrdi-rrdtool up", "update updatev"), ("rrdi-rrdtool --ex", "--exact"),
                ("rrdi-rrdtool --exact las", "last lastupdate"), ("rrdi-rrdtool last so", "some.rrd some.rrdi")):
            with self.subTest(line=line):
                self.assertEqual(self.complete("rrdi-tools.bash", "_rrdi_tool", line), words.split())

    def test_no_typed_word_is_run(self) -> None:
        for word in RUNNING:
            for line in (f"rrdi {word}", f"rrdi info {word}", f"rrdi create {word} D", f"rrdi create f DS:{word}:", f"rrdi create f DS:{word}:G",
                         f"rrdi create f DS:a:GAUGE:{word}:", f"rrdi create f DS:a:GAUGE:1:{word}:", f"rrdi create f RRA:{word}",
                         f"rrdi update some.rrdi -t {word}:o", f"rrdi update some.rrdi -t {word}:", f"rrdi tune some.rrdi -d {word}:",
                         f"rrdi tune some.rrdi DELRRA:{word}", f"rrdi resize {word} ", f"rrdi fetch f {word}", f"rrdi fetch f >{word}",
                         f"rrdi info some.rrdi > {word}", f"{word} info some.rrdi", f"{word} resize some.rrdi ", f"rrdi {word} f -t "):
                with self.subTest(line=line):
                    self.rrdi_completes(line)
                    self.assertFalse((self.folder / "ran").exists())

    def test_no_typed_word_of_a_tool_is_run(self) -> None:
        tools = ("rrdi-import", "rrdi-export", "rrdi-compare", "rrdi-plot", "rrdi-record", "rrdi-feed", "rrdi-graph", "rrdi-rrdtool",
                 "rrdi-carbon-cache", "rrdi-show", "rrdi-fix", "rrdi-check")
        for tool in tools:
            for word in RUNNING:
                for line in (f"{tool} {word}", f"{tool} -{word}", f"{tool} some.rrdi {word}", f"{tool} {word} some.rrdi ",
                             f"{tool} a b {word}", f"{tool} --rules {word}"):
                    with self.subTest(line=line):
                        self.complete("rrdi-tools.bash", "_rrdi_tool", line)
                        self.assertFalse((self.folder / "ran").exists())
