#!/usr/bin/env python3
"""Tests of tools/build and of ./pcm, over a small repository and a kit that proves nothing: what is built and when, what is kept and where,
what is said, and that nothing is left where the gate refuses it; of what the examples' checks count, and of what bench/refuse-calls
notices. They need no kit and take seconds."""
import contextlib
import io
import os
import pathlib
import re
import shutil
import signal
import stat
import subprocess
import sys
import tempfile
import time
import unittest

sys.dont_write_bytecode = True
TOP = pathlib.Path(__file__).resolve().parent.parent
sys.path.append(str(TOP / "bench"))
import pages
import refusing

# A check that refuses the word 'wrong', and a compiler that makes a static library of the kit's own text for one.
RATTLE = """#!/bin/sh
verb=$1 kit=$(dirname "$0")/..
while [ $# -gt 0 ]; do
    if [ "$1" = --crate-name ]; then name=$2 root=$3; fi
    if [ "$1" = -o ]; then to=$2; fi
    shift
done
if [ "$verb" = build ]; then
    cc -c -fPIC -o "$to.o" "$kit/static.c" && ar rcs "$to" "$to.o"
    exit
fi
if grep -q wrong "$root"; then
    echo "$root:1:1: error: no proof"
    echo "logic=not-proved functions=1"
    exit 1
fi
echo "logic=proved functions=1"
"""
# A gate that notes for which crate it was asked and with how many jobs, waits as long as the file `slow` says, keeps beside the kit what it
# made, by the text of a crate and of those below it, and refuses wrong bodies, and texts with the word 'wrong'.
RT = '''#!/usr/bin/env python3
import fcntl, hashlib, os, pathlib, shutil, sys, time
noted, kit = pathlib.Path("{kit}"), pathlib.Path(__file__).resolve().parent.parent
if sys.argv[1:] != ["ci"]:
    print("a kit for tests" if sys.argv[1:] == ["version"] else f"{{kit}}/START-HERE.md")
    sys.exit()
store, sums = kit.parent / "rattle-kept", {{}}
store.mkdir(exist_ok=True)
(noted / "jobs").write_text(os.environ["RT_JOBS"])
for name, _, below in (line.replace(" staticlib", "").partition(":") for line in pathlib.Path("crates.txt").read_text().splitlines()):
    folder = pathlib.Path("crates", name)
    is_program = (folder / "src" / "main.rt").exists()
    texts = [it.read_text() for part in ("src", "specs", "proofs") for it in sorted((folder / part).rglob("*")) if it.is_file()]
    sums[name] = hashlib.sha256(repr((texts, [sums[it] for it in below.split()])).encode()).hexdigest()
    entry = store / f"proof-{{name}}-{{sums[name]}}"
    with open(store / f"lock-{{sums[name]}}", "w") as lock:
        try:
            fcntl.flock(lock, fcntl.LOCK_EX | fcntl.LOCK_NB)
        except BlockingIOError:
            print(f"rt: {{name}}: another run on this machine is proving the same; waiting for it", flush=True)
            fcntl.flock(lock, fcntl.LOCK_EX)
        if entry.exists():
            print(f"rt: {{name}} is kept: an earlier run on this machine proved the same files over the same libraries", flush=True)
        else:
            with open(noted / "called", "a") as called:
                called.write(f"{{name}}\\n")
            if (noted / "slow").exists():
                time.sleep(float((noted / "slow").read_text()))
            print(f"== {{name}}", flush=True)
            if "wrong" in "".join(texts) or (folder / "must-fail").exists() or (folder / "wrong").exists():
                print(f"src/lib.rt:1:1: error: no proof\\nlogic=not-proved functions=1\\nrt: {{name}} NOT PROVED", flush=True)
                sys.exit(1)
            entry.mkdir()
            if is_program:
                (entry / name).write_text((noted / "program").read_text())
                (entry / name).chmod(0o755)
            else:
                (entry / f"{{name}}.rlib").mkdir()
                (entry / f"{{name}}.rlib" / "format").write_text(sums[name])
            print(f"logic=proved functions=1\\nrt: {{name}} proved", flush=True)
    shutil.copytree(entry, folder / "out" / ("" if is_program else "rlib"))
if (noted / "refuses").exists():
    print("rt: FAILED: pcm_cli (run)")
    sys.exit(1)
'''
# A program that tells its words, and refuses those that pcm_cli refuses here.
PROGRAM = """#!/bin/sh
case "$(basename "$0") $*" in
    *-psi*0*) echo "usage: pcm run|gen|map|moves|show|check [options]" >&2; exit 2 ;;
    pcm_explain*none*) echo "usage: pcm explain [options]" >&2; exit 2 ;;
    pcm_explain*-spares*4*) echo "results row 1" >&2; exit 3 ;;
    *faulty*) echo "trace row 2: order" >&2; exit 3 ;;
esac
echo "$(basename "$0")" "$@"
"""
# What tools/libraries asks of the kit.
RTLIB = """
import os
class Crate:
    def __init__(self, name): self.name = name
    def stamp(self): return f"stamp-of-{self.name}"
def crates_below(top): return [Crate(it) for it in os.listdir(f"{top}/crates")]
"""
# The code of a static library, and what it asks of the kit's own archive.
STATIC = "void *rattle_alloc(unsigned long);\nint pcm_module_rows(void *it) { return it ? 7 : rattle_alloc(1) != 0; }\nint inside(void) { return 1; }\n"
HEAP = "#include <stdlib.h>\nvoid *rattle_alloc(unsigned long size) { return malloc(size); }\n"
CRATES = "# 1. PARTS\nfirst:\nsecond: first\n# 2. PROGRAMS\npcm_cli: second\npcm_stream: first\npcm_explain: second\npcm_view: second\npcm_disk: first\n"
HAS_COMPILER = bool(shutil.which("cc") and shutil.which("ar"))
PROGRAMS = ("pcm_cli", "pcm_stream", "pcm_explain", "pcm_view", "pcm_disk")


def setUpModule():
    """What is started in the background has Ctrl-C ignored, by nohup a hang-up too, and so has all that it starts: a shell can't even trap it then."""
    signal.signal(signal.SIGINT, signal.default_int_handler)
    signal.signal(signal.SIGHUP, signal.SIG_DFL)


class Room:
    """A small repository, a kit, and a folder for what builds keep, in a folder of their own, whose name has a blank."""

    def __init__(self):
        self.folder = pathlib.Path(tempfile.mkdtemp(prefix="pcm tools "))
        self.kit, self.cache, self.store = self.folder / "kit", self.folder / "cache", self.folder / "rattle-kept"
        (self.kit / "bin").mkdir(parents=True)
        (self.kit / "KIT-ID").write_text("a kit for tests\n")
        self.script(self.kit / "bin" / "rattle", RATTLE)
        self.script(self.kit / "bin" / "rt", RT.format(kit=self.kit))
        (self.kit / "bin" / "rtlib.py").write_text(RTLIB)
        (self.kit / "program").write_text(PROGRAM)
        (self.kit / "static.c").write_text(STATIC)
        self.top = self.repository("a clone")
        self.around = {**os.environ, "XDG_CACHE_HOME": str(self.cache), "PATH": f"{self.kit}/bin:{os.environ['PATH']}"}
        for name in ("PCM_EXPLAIN", "PCM_PROGRESS", "RT_JOBS"):
            self.around.pop(name, None)

    @staticmethod
    def script(path, text):
        path.write_text(text)
        path.chmod(0o755)

    def repository(self, name):
        top = self.folder / name
        for folder in ("tools", "python/pcm"):
            shutil.copytree(TOP / folder, top / folder, ignore=shutil.ignore_patterns("__pycache__", "tried.txt"))
        for file in ("pcm", "VERSION", "README.md", "docs/USING.md"):
            (top / file).parent.mkdir(exist_ok=True)
            shutil.copy(TOP / file, top / file)
        (top / "crates.txt").write_text(CRATES)
        for crate, root in (("first", "lib"), ("second", "lib"), *((it, "main") for it in PROGRAMS)):
            for part, file in (("src", f"{root}.rt"), ("specs", "Lib.antt"), ("proofs", "Lib.antt")):
                (top / "crates" / crate / part).mkdir(parents=True)
                (top / "crates" / crate / part / file).write_text(f"-- {crate}\n")
        return top

    def add_library(self):
        """Adds a static library, with the kit's archive that it is linked with."""
        with open(self.top / "crates.txt", "a") as listed:
            listed.write("pcm_c staticlib: first\n")
        (self.top / "crates/pcm_c/src").mkdir(parents=True)
        (self.top / "crates/pcm_c/src/lib.rt").write_text("// a library\n")
        (self.kit / "c").mkdir()
        (self.kit / "c" / "heap.c").write_text(HEAP)
        subprocess.run(["cc", "-c", "-fPIC", "-o", "heap.pic.o", "heap.c"], cwd=self.kit / "c", check=True)
        subprocess.run(["ar", "rcs", "liblibc_c.a", "heap.pic.o"], cwd=self.kit / "c", check=True)

    def run(self, *words, top=None, **around):
        how = {"cwd": self.folder, "env": {**self.around, **around}, "stdin": subprocess.DEVNULL, "capture_output": True, "text": True}
        return subprocess.run([(top or self.top) / words[0], *words[1:]], **how, timeout=600)

    def start(self, *words, top=None):
        how = {"cwd": self.folder, "env": self.around, "stdin": subprocess.DEVNULL, "stderr": subprocess.PIPE, "text": True}
        return subprocess.Popen([(top or self.top) / words[0], *words[1:]], **how)

    def called(self):
        """For which crates the gate had no proof since this was asked last."""
        file = self.kit / "called"
        names = file.read_text().split() if file.exists() else []
        file.unlink(missing_ok=True)
        return sorted(names)

    def refused(self):
        """What the gate would refuse: Rattle's files outside a crate's text and the library in its out/."""
        found = []
        for path in self.top.rglob("*"):
            inside = path.relative_to(self.top).parts
            places = {".rt": ("src",), ".antt": ("specs", "proofs")}.get(path.suffix)
            if places and not (inside[0] == "crates" and (inside[2] in places or inside[2:4] == ("out", "rlib"))):
                found.append(str(path.relative_to(self.top)))
        return found

    def wait_for_call(self):
        until = time.monotonic() + 20
        while not (self.kit / "called").exists() and time.monotonic() < until:
            time.sleep(0.02)


class Builds(unittest.TestCase):
    def setUp(self):
        self.room = Room()
        self.addCleanup(shutil.rmtree, self.room.folder, ignore_errors=True)

    def build(self, *words, **how):
        done = self.room.run("tools/build", *words, **how)
        self.assertEqual(done.returncode, 0, done.stderr)
        return done

    def edit(self, path, text):
        time.sleep(0.03)
        (self.room.top / path).write_text(text)

    def test_one_call_builds_several_programs_and_leaves_nothing_that_the_gate_refuses(self):
        done = self.build("pcm_cli", "pcm_stream")
        self.assertEqual(self.room.called(), ["first", "pcm_cli", "pcm_stream", "second"])
        self.assertEqual(self.room.refused(), [])
        self.assertRegex(done.stderr, r"\Apcm: building pcm_cli pcm_stream, .*\npcm: proved 1 of 4 crates in 0 min \d s: first\n")
        self.build("pcm_cli", "pcm_stream")
        self.assertEqual(self.room.called(), [])

    @unittest.skipUnless(HAS_COMPILER, "there is no cc, or no ar")
    def test_a_static_library_is_proved_compiled_and_made_into_two_files(self):
        self.room.add_library()
        self.build("library")
        self.assertEqual(self.room.called(), ["first", "pcm_c"])
        out = self.room.top / "crates/pcm_c/out"
        self.assertEqual(sorted(it.name for it in out.iterdir()), ["libpcm.a", "libpcm.so.1"])
        names = subprocess.run(["nm", "-D", "--defined-only", out / "libpcm.so.1"], capture_output=True, text=True, check=True).stdout
        self.assertEqual([line.split()[-1] for line in names.splitlines()], ["pcm_module_rows"])
        self.build("pcm_c")
        self.assertEqual(self.room.called(), [])
        self.edit("crates/pcm_c/src/lib.rt", "// wrong\n")
        done = self.room.run("tools/build", "library")
        self.assertEqual((done.returncode, done.stderr.splitlines()[-1]), (1, "pcm: the proof of pcm_c failed; crates/pcm_c/build.log says why"))
        (self.room.kit / "static.c").write_text("no C\n")
        self.edit("crates/pcm_c/src/lib.rt", "// another\n")
        done = self.room.run("tools/build", "library")
        self.assertEqual((done.returncode, done.stderr.splitlines()[-1]), (1, "pcm: the kit doesn't compile pcm_c; crates/pcm_c/build.log says why"))

    def test_the_gate_of_the_kit_finds_what_a_build_proved(self):
        self.build("pcm_cli")
        self.room.called()
        (self.room.folder / "cache" / "leqallqu").rename(self.room.folder / "gone")
        shutil.copy(self.room.top / "crates.txt", self.room.folder / "crates.txt")
        own = "".join(line for line in (self.room.folder / "crates.txt").read_text().splitlines(True) if not line.startswith("#"))
        (self.room.top / "crates.txt").write_text(own)
        done = subprocess.run(["rt", "ci"], cwd=self.room.top, env={**self.room.around, "RT_JOBS": "1"}, capture_output=True, text=True)
        self.assertEqual([it for it in done.stdout.splitlines() if "pcm_cli" in it or "second" in it], [
            f"rt: {it} is kept: an earlier run on this machine proved the same files over the same libraries" for it in ("second", "pcm_cli")
        ])

    def test_proofs_take_as_many_processors_as_there_are_and_memory_holds(self):
        self.build("pcm_stream", RT_JOBS="3")
        self.assertEqual((self.room.kit / "jobs").read_text(), "3")
        self.assertEqual(self.build("--jobs", RT_JOBS="7").stdout, "7\n")
        self.assertIn(int(self.build("--jobs").stdout), range(1, len(os.sched_getaffinity(0)) + 1))

    def test_a_library_is_proved_with_those_below_it_and_kept(self):
        self.build("second")
        self.assertEqual(self.room.called(), ["first", "second"])
        self.build("first", "second")
        self.assertEqual(self.room.called(), [])
        self.build("pcm_cli")
        self.assertEqual(self.room.called(), ["pcm_cli"])

    def test_libraries_are_put_where_rt_looks_for_them(self):
        self.assertEqual(self.room.run("tools/libraries").returncode, 0)
        self.assertEqual(self.room.called(), ["first", "second"])
        for it in ("first", "second"):
            out = self.room.top / "crates" / it / "out" / "rlib"
            self.assertEqual(((out / "stamp").read_text(), [it.name for it in (out / f"{it}.rlib").iterdir()]), (f"stamp-of-{it}", ["format"]))
        self.assertFalse((self.room.top / "crates" / "pcm_cli" / "out").exists())

    def test_what_proofs_said_is_noted_and_else_what_the_kit_says_of_them(self):
        lines = lambda: [it.read_text() for it in sorted((self.room.cache / "leqallqu" / "lines").iterdir())]
        self.build("pcm_stream")
        said = lines()
        self.assertEqual(set(said), {"logic=proved functions=1\n"})
        self.room.called()
        shutil.rmtree(self.room.cache)
        self.build("--kept", "pcm_stream")
        self.assertEqual(self.room.called(), [])
        self.assertEqual(lines(), ["is kept: an earlier run on this machine proved the same files over the same libraries\n"] * len(said))

    def test_the_gate_runs_the_tests_behind_the_proofs_and_not_where_these_fail(self):
        (self.room.top / ".ci").mkdir()
        shutil.copy(TOP / ".ci" / "run", self.room.top / ".ci")
        self.room.script(self.room.top / "tools" / "test", "#!/bin/sh\necho tests\nexit 3\n")
        (self.room.top / "crates.txt").write_text("first:\npcm_stream: first\n")
        self.room.add_library()
        done = self.room.run(".ci/run", CI="", RT_JOBS="5")
        self.assertEqual((done.returncode, done.stdout.splitlines()[-1]), (3, "tests"), done.stderr)
        self.assertTrue((self.room.top / "crates" / "pcm_c" / "out" / "libpcm.a").is_file())
        self.assertEqual((self.room.kit / "jobs").read_text(), "5")
        (self.room.top / "crates" / "first" / "src" / "lib.rt").write_text("wrong\n")
        done = self.room.run(".ci/run", CI="")
        self.assertEqual((done.returncode, done.stdout.splitlines()[-1]), (1, "rt: first NOT PROVED"), done.stderr)

    def test_a_second_clone_builds_at_once(self):
        self.build("pcm_cli")
        self.room.called()
        other = self.room.repository("another clone")
        self.build("pcm_cli", top=other)
        self.assertEqual(self.room.called(), [])
        self.assertEqual(self.room.run("pcm", "map", top=other).stdout, "pcm_cli map\n")

    def test_what_changed_and_what_stands_on_it_is_proved_again(self):
        self.build("pcm_cli", "pcm_stream")
        self.room.called()
        self.edit("crates/second/src/lib.rt", "fn other() {}\n")
        self.assertEqual(self.room.run("pcm", "stream").stdout, "pcm_stream\n")
        self.assertEqual(self.room.called(), [])
        self.assertEqual(self.room.run("pcm", "map").stdout, "pcm_cli map\n")
        self.assertEqual(self.room.called(), ["pcm_cli", "second"])
        self.edit("crates/first/specs/Lib.antt", "-- another definition\n")
        self.assertEqual(self.room.run("pcm", "stream").stdout, "pcm_stream\n")
        self.assertEqual(self.room.called(), ["first", "pcm_stream"])

    def test_an_edit_that_is_taken_back_finds_what_was_proved(self):
        self.build("pcm_cli")
        before = (self.room.top / "crates/second/src/lib.rt").read_text()
        self.edit("crates/second/src/lib.rt", "fn other() {}\n")
        self.build("pcm_cli")
        self.room.called()
        self.edit("crates/second/src/lib.rt", before)
        self.assertEqual(self.room.run("pcm", "map").returncode, 0)
        self.assertEqual(self.room.called(), [])

    def test_a_proof_alone_makes_no_program_old(self):
        self.build("pcm_cli")
        self.room.called()
        self.edit("crates/second/proofs/Lib.antt", "-- another proof\n")
        self.assertEqual(self.room.run("pcm", "map").returncode, 0)
        self.assertEqual(self.room.called(), [])
        self.build("pcm_cli")
        self.assertEqual(self.room.called(), ["pcm_cli", "second"])

    def test_what_the_gate_built_is_run_until_a_text_is_newer(self):
        self.build("pcm_cli")
        made = (self.room.top / "crates/pcm_cli/out/pcm_cli").read_bytes()
        shutil.rmtree(self.room.top / "crates/pcm_cli/out")
        shutil.rmtree(self.room.cache)
        shutil.rmtree(self.room.store)
        self.room.called()
        (self.room.top / "crates/pcm_cli/out").mkdir()
        self.edit("crates/pcm_cli/out/pcm_cli", "")
        (self.room.top / "crates/pcm_cli/out/pcm_cli").write_bytes(made)
        (self.room.top / "crates/pcm_cli/out/pcm_cli").chmod(0o755)
        self.assertEqual(self.room.run("pcm", "map").stdout, "pcm_cli map\n")
        self.assertEqual(self.room.called(), [])
        self.edit("crates/first/src/lib.rt", "fn other() {}\n")
        self.assertEqual(self.room.run("pcm", "map").stdout, "pcm_cli map\n")
        self.assertEqual(self.room.called(), ["first", "pcm_cli", "second"])

    def test_a_proof_that_fails_is_told_in_one_sentence_and_nothing_is_kept(self):
        self.edit("crates/second/src/lib.rt", "wrong\n")
        done = self.room.run("tools/build", "pcm_cli")
        self.assertEqual(done.returncode, 1)
        self.assertEqual(done.stderr.splitlines()[-1], "pcm: the proof of second failed; crates/pcm_cli/build.log says why")
        self.assertIn("error: no proof", (self.room.top / "crates/pcm_cli/build.log").read_text())
        self.assertEqual(self.room.run("pcm", "map").returncode, 70)
        self.assertEqual(list((self.room.cache / "leqallqu").glob("kept/*")), [])

    def test_what_the_kit_refuses_of_proved_crates_is_told(self):
        (self.room.kit / "refuses").write_text("")
        done = self.room.run("tools/build", "pcm_cli")
        self.assertEqual((done.returncode, done.stderr.splitlines()[-1]), (1, "pcm: the kit refuses pcm_cli; crates/pcm_cli/build.log says why"))
        self.assertFalse((self.room.top / "crates/pcm_cli/out").exists())

    def test_a_text_that_changes_while_it_is_proved_isnt_kept(self):
        (self.room.kit / "slow").write_text("1")
        build = self.room.start("tools/build", "pcm_stream")
        self.room.wait_for_call()
        (self.room.top / "crates/first/src/lib.rt").write_text("fn other() {}\n")
        said = build.communicate(timeout=600)[1]
        self.assertEqual(build.returncode, 1)
        self.assertIn("the text of first changed while it was proved: build again", said)

    def test_a_second_build_says_that_it_waits_and_then_makes_nothing(self):
        (self.room.kit / "slow").write_text("3")
        first = self.room.start("tools/build", "pcm_stream")
        self.room.wait_for_call()
        second = self.room.run("tools/build", "pcm_stream")
        first.communicate(timeout=600)
        self.assertEqual((first.returncode, second.returncode), (0, 0))
        self.assertEqual(second.stderr, "pcm: another build works in this checkout: waiting until it ends\n")
        self.assertEqual(self.room.called(), ["first", "pcm_stream"])

    def test_builds_in_two_clones_prove_each_crate_once(self):
        (self.room.kit / "slow").write_text("3")
        other = self.room.repository("another clone")
        builds = [self.room.start("tools/build", "pcm_cli", top=top) for top in (self.room.top, other)]
        said = [it.communicate(timeout=600)[1] for it in builds]
        self.assertEqual([it.returncode for it in builds], [0, 0], said)
        self.assertEqual(self.room.called(), ["first", "pcm_cli", "second"])
        self.assertTrue(any("another build proves first just now: waiting for it" in it for it in said), said)

    def test_ctrl_c_and_other_signals_end_a_build_with_all_that_it_started(self):
        (self.room.kit / "slow").write_text("30.071")
        line = ["pcm: broken off; what was proved is kept, and a later call goes on from there"]
        for number, told in ((signal.SIGINT, line), (signal.SIGTERM, []), (signal.SIGHUP, [])):
            build = self.room.start("tools/build", "pcm_stream")
            self.room.wait_for_call()
            time.sleep(0.1)
            build.send_signal(number)
            said = build.communicate(timeout=600)[1]
            self.assertEqual((build.returncode, said.splitlines()[1:]), (128 + number, told))
            self.assertEqual(list((self.room.cache / "leqallqu" / "rooms").iterdir()), [])
            self.assertFalse((self.room.top / "crates/pcm_stream/out").exists())
            self.assertNotIn(str(self.room.kit), subprocess.run(["ps", "-eo", "args"], capture_output=True, text=True).stdout)
            self.room.called()

    def test_words_of_a_build(self):
        self.assertIn("tools/build [PROGRAM ..]", self.build("--help").stdout)
        done = self.room.run("tools/build", "none")
        self.assertEqual(done.returncode, 1)
        takes = f"tools/build takes {', '.join(PROGRAMS)}, other crates of crates.txt, --clean or --help"
        self.assertEqual(done.stderr, f"pcm: none is no crate: {takes}\n")
        self.build("pcm_stream")
        self.build("--clean")
        self.assertEqual(list((self.room.cache / "leqallqu").iterdir()), [])

    def test_where_the_cache_cant_be_made_another_folder_is_taken(self):
        (self.room.folder / "temporary").mkdir()
        place = {"XDG_CACHE_HOME": "/proc/none", "TMPDIR": str(self.room.folder / "temporary")}
        self.build("pcm_stream", **place)
        kept = self.room.folder / "temporary" / f"leqallqu-{os.getuid()}"
        self.assertEqual(stat.S_IMODE(kept.stat().st_mode), 0o700)
        done = self.room.run("tools/build", "pcm_cli", **{**place, "TMPDIR": "/proc/none"})
        self.assertEqual((done.returncode, len(done.stderr.splitlines())), (1, 1))

    def test_a_cache_in_the_checkout_isnt_used(self):
        (self.room.folder / "temporary").mkdir()
        self.build("pcm_stream", XDG_CACHE_HOME=str(self.room.top / ".cache"), TMPDIR=str(self.room.folder / "temporary"))
        self.assertEqual(self.room.refused(), [])

    def test_where_the_kit_cant_keep_beside_itself_it_does_by_another_name(self):
        self.room.store.write_text("")
        self.build("pcm_stream")
        self.assertEqual(self.room.called(), ["first", "pcm_stream"])
        self.edit("crates/pcm_stream/src/main.rt", "fn other() {}\n")
        self.build("pcm_stream")
        self.assertEqual(self.room.called(), ["pcm_stream"])
        self.build("--clean")
        shutil.rmtree(self.room.top / "crates/pcm_stream/out")
        self.build("pcm_stream")
        self.assertEqual(self.room.called(), ["first", "pcm_stream"])

    def test_few_entries_of_a_crate_stay(self):
        for number in range(5):
            self.edit("crates/pcm_stream/src/main.rt", f"{number}\n")
            self.build("pcm_stream")
        kept = self.room.cache / "leqallqu" / "kept"
        entries = sorted(kept.glob("pcm_stream-*"), key=lambda it: it.stat().st_mtime)
        self.assertEqual(len(entries), 5)
        for it in entries:
            os.utime(it, (it.stat().st_mtime - 2 * 86400,) * 2)
        self.build("pcm_stream")
        self.assertEqual(len(list(kept.glob("pcm_stream-*"))), 3)


class Wrapper(unittest.TestCase):
    @classmethod
    def setUpClass(cls):
        cls.room = Room()
        cls.room.run("tools/build", *PROGRAMS)

    @classmethod
    def tearDownClass(cls):
        shutil.rmtree(cls.room.folder, ignore_errors=True)

    def test_it_hands_words_on(self):
        self.assertEqual(self.room.run("pcm", "run", "--psi", "5 5", "").stdout, "pcm_cli run --psi 5 5 \n")
        self.assertEqual(self.room.run("pcm", "stream", "--psi", "5").stdout, "pcm_stream --psi 5\n")
        self.assertEqual(self.room.run("pcm", "explain", "--spares", "5").stdout, "pcm_explain --spares 5\n")
        self.assertEqual(self.room.run("pcm", "view").stdout, "pcm_view\n")
        self.assertEqual(self.room.run("pcm", "disk", "--sector", "512").stdout, "pcm_disk --sector 512\n")

    def test_it_runs_through_a_link_and_by_the_search_path(self):
        os.symlink(self.room.top / "pcm", self.room.folder / "a link")
        self.assertEqual(self.room.run("../a link", "map").stdout, "pcm_cli map\n")
        os.symlink(self.room.top / "pcm", self.room.kit / "bin" / "pcm")
        done = subprocess.run(["pcm", "map"], env=self.room.around, capture_output=True, text=True, cwd="/")
        self.assertEqual(done.stdout, "pcm_cli map\n")
        done = subprocess.run(["sh", "pcm", "map"], env=self.room.around, capture_output=True, text=True, cwd=self.room.top)
        self.assertEqual(done.stdout, "pcm_cli map\n")

    def test_it_tells_where_the_programs_are(self):
        self.assertEqual(self.room.run("pcm", "path").stdout, f"{self.room.top}/crates/pcm_cli/out/pcm_cli\n")
        for word in ("stream", "explain", "view", "disk"):
            self.assertEqual(self.room.run("pcm", "path", word).stdout, f"{self.room.top}/crates/pcm_{word}/out/pcm_{word}\n")
        done = self.room.run("pcm", "path", "gen")
        self.assertEqual((done.returncode, done.stdout, len(done.stderr.splitlines())), (2, "", 1))

    def test_without_a_kit_it_builds_nothing_and_says_so(self):
        other = self.room.repository("without a kit")
        done = self.room.run("pcm", "map", top=other, PATH="/usr/bin:/bin")
        self.assertEqual(done.returncode, 70)
        self.assertEqual(done.stderr, "pcm: the kit isn't here: there is no command rt (README.md says what the kit is)\n")
        done = self.room.run("pcm", "rum", top=other, PATH="/usr/bin:/bin", PCM_EXPLAIN="1")
        self.assertEqual((done.returncode, done.stderr.splitlines()[1:]), (2, ["pcm: there is no command rum (did you mean run?)"]))
        self.assertEqual(self.room.run("pcm", "version", top=other, PATH="/usr/bin:/bin").stdout, (TOP / "VERSION").read_text())

    def test_without_words_it_says_how_to_go_on(self):
        done = self.room.run("pcm")
        self.assertEqual((done.returncode, done.stderr), (2, "usage: pcm run|gen|map|moves|show|check [options]\n"))
        done = self.room.run("pcm", PCM_EXPLAIN="1")
        self.assertEqual(done.stderr.splitlines()[0], "usage: pcm run|gen|map|moves|show|check [options]")
        self.assertIn("pcm help", done.stderr)

    def test_version_and_help(self):
        for word in ("version", "--version"):
            self.assertEqual(self.room.run("pcm", word).stdout, (TOP / "VERSION").read_text())
        done = self.room.run("pcm", "help", "rum")
        self.assertEqual((done.returncode, done.stdout), (2, ""))
        self.assertEqual(done.stderr.splitlines()[0], "pcm: there is no command rum (did you mean run?)")
        self.assertEqual(self.room.run("pcm", "help", "map").stdout, self.room.run("pcm", "map", "--help").stdout)

    def test_what_is_wrong_is_said_to_a_person_alone_behind_the_programs_line(self):
        line = "usage: pcm run|gen|map|moves|show|check [options]\n"
        done = self.room.run("pcm", "run", "--psi", "0")
        self.assertEqual((done.returncode, done.stderr), (2, line))
        done = self.room.run("pcm", "run", "--psi", "0", PCM_EXPLAIN="1")
        self.assertEqual((done.returncode, done.stderr), (2, f"{line}pcm: --psi 0: it may be 1 to 65535\n"))

    def test_what_is_wrong_of_an_explanation_is_said_as_of_a_check(self):
        line = "usage: pcm explain [options]\n"
        for words, said in {
            ("--spares", "none"): "pcm: --spares none: it may be a number of decimal digits alone, 0 to 1024\n",
            ("--spare", "none"): "pcm: --spare is no option of explain (did you mean --spares?)\n",
        }.items():
            done = self.room.run("pcm", "explain", *words)
            self.assertEqual((done.returncode, done.stderr), (2, line))
            done = self.room.run("pcm", "explain", *words, PCM_EXPLAIN="1")
            self.assertEqual((done.returncode, done.stderr), (2, f"{line}{said}"))
        table = self.room.folder / "a table"
        table.write_text("tick,op,arg,data\n5,R,0,\nrow,op,line,outcome,tick,place,data\n1,R,0,queued,5,,\n")
        with open(table) as source:
            how = {"stdin": source, "capture_output": True, "text": True, "env": {**self.room.around, "PCM_EXPLAIN": "1"}}
            done = subprocess.run([self.room.top / "pcm", "explain", "--spares", "4"], **how)
        self.assertEqual(done.returncode, 3)
        said = "line 4: the fourth field of R may be read, forwarded, busy or lost (queued is of W)"
        self.assertEqual(done.stderr, f"results row 1\npcm: {said}\n")

    def test_all_banks_are_explained_by_python(self):
        done = self.room.run("pcm", "explain", "--all", "--spares", "5")
        said = "explain: line 1 of an explanation should be `row NUMBER: RULE`, or `ok`, and is 'pcm_explain --spares 5'\n"
        self.assertEqual((done.returncode, done.stdout, done.stderr), (3, "", said))
        self.assertEqual(self.room.run("pcm", "explain", "--spares", "5", "--all", PCM="nowhere").stderr, said)
        done = self.room.run("pcm", "explain", "--spares", "none", "--all")
        self.assertEqual((done.returncode, done.stdout), (2, ""))
        self.assertIn("--spares none: it may be a number of decimal digits alone, 0 to 1024", done.stderr)
        self.assertEqual(self.room.run("pcm", "check", "--all").stdout, "pcm_cli check --all\n")

    def test_without_python_it_says_what_all_banks_need(self):
        room = self.room.folder / "few tools"
        room.mkdir()
        for name in ("sh", "dirname", "readlink"):
            os.symlink(shutil.which(name), room / name)
        done = self.room.run("pcm", "explain", "--all", PATH=str(room))
        self.assertEqual((done.returncode, done.stdout, done.stderr), (2, "", "pcm: --all needs python3\n"))

    def test_a_build_of_one_program_makes_no_other(self):
        other = self.room.repository("another clone")
        self.room.called()
        self.room.run("tools/build", top=other)
        self.assertEqual([it.name for it in sorted(other.glob("crates/*/out/pcm_*")) if "." not in it.name], ["pcm_cli"])
        self.assertEqual(self.room.run("pcm", "explain", top=other).stdout, "pcm_explain\n")
        made = [it.name for it in sorted(other.glob("crates/*/out/pcm_*")) if "." not in it.name]
        self.assertEqual(made, ["pcm_cli", "pcm_explain"])

    def test_the_line_of_a_faulty_row_is_said(self):
        trace = self.room.folder / "a trace"
        trace.write_text("tick,op,arg,data\n\n5,R,0,\n3,R,0,\n")
        with open(trace) as source:
            how = {"stdin": source, "capture_output": True, "text": True, "env": {**self.room.around, "PCM_EXPLAIN": "1"}}
            done = subprocess.run([self.room.top / "pcm", "faulty"], **how)
        self.assertEqual(done.returncode, 3)
        self.assertEqual(done.stderr, "trace row 2: order\npcm: line 4: its tick 3 is below 5, the tick of the row before (line 3)\n")

    def test_progress_is_told_of_runs_and_streams_and_their_words_go_on(self):
        self.assertEqual(self.room.run("pcm", "run", "--progress", "--psi", "5").stdout, "pcm_cli run --psi 5\n")
        self.assertEqual(self.room.run("pcm", "run", "--psi", "5 5", "--progress").stdout, "pcm_cli run --psi 5 5\n")
        self.assertEqual(self.room.run("pcm", "stream", "--progress", "--psi", "5").stdout, "pcm_stream --psi 5\n")
        done = self.room.run("pcm", "run", "--psi", "0", "--progress", PCM_EXPLAIN="1")
        said = ["usage: pcm run|gen|map|moves|show|check [options]", "pcm: --psi 0: it may be 1 to 65535"]
        self.assertEqual((done.returncode, done.stderr.splitlines()), (2, said))

    def test_a_closed_output_is_the_programs_to_tell(self):
        ended = []
        for told in "01":
            words, around = ["sh", "-c", f"'{self.room.top}/pcm' map >&-"], {**self.room.around, "PCM_EXPLAIN": told}
            done = subprocess.run(words, env=around, capture_output=True, text=True, timeout=20)
            ended.append((done.returncode, done.stderr))
        self.assertEqual(ended[0], ended[1])
        self.assertNotIn("/pcm: ", ended[1][1])

    def test_a_pipe_that_is_closed_ends_it(self):
        words = f"'{self.room.top}/pcm' map | head -c 0; exit ${{PIPESTATUS[0]}}"
        done = subprocess.run(["bash", "-c", words], env={**self.room.around, "PCM_EXPLAIN": "1"}, capture_output=True, timeout=20)
        self.assertIn(done.returncode, (0, 1, 2, 141))


class Installed(unittest.TestCase):
    """An installed tree and an archive, where the checkout is gone."""

    @classmethod
    def setUpClass(cls):
        cls.room = Room()
        for folder in ("c", "sv"):
            shutil.copytree(TOP / folder, cls.room.top / folder)
        if HAS_COMPILER:
            cls.room.add_library()
        cls.prefix = cls.room.folder / "not there" / "a prefix"
        cls.said = [cls.room.run("tools/install", "--prefix", str(cls.prefix)), cls.room.run("tools/dist", str(cls.room.folder))]
        shutil.move(cls.room.top, cls.room.folder / "gone")

    @classmethod
    def tearDownClass(cls):
        shutil.rmtree(cls.room.folder, ignore_errors=True)

    def pcm(self, *words, **around):
        return self.room.run("pcm", *words, top=self.prefix / "bin", PATH="/usr/bin:/bin", **around)

    def test_it_runs_without_the_checkout_and_the_kit(self):
        self.assertEqual([it.returncode for it in self.said], [0, 0], self.said)
        self.assertEqual(self.pcm("map").stdout, "pcm_cli map\n")
        self.assertEqual(self.pcm("stream", "--psi", "5").stdout, "pcm_stream --psi 5\n")
        self.assertEqual(self.pcm("explain", "--spares", "5").stdout, "pcm_explain --spares 5\n")
        self.assertIn("and is 'pcm_explain --spares 5'", self.pcm("explain", "--all", "--spares", "5").stderr)
        self.assertEqual(self.pcm("--version").stdout, (TOP / "VERSION").read_text())
        self.assertIn("pcm show <", self.pcm("help", "show").stdout)
        self.assertNotIn("./pcm", self.pcm("help", "show").stdout)
        self.assertEqual(self.pcm("run", "--psi", "0", PCM_EXPLAIN="1").stderr.splitlines()[1:], ["pcm: --psi 0: it may be 1 to 65535"])
        for path in self.prefix.rglob("*"):
            self.assertTrue(path.is_symlink() or path.stat().st_mode & 0o444 == 0o444, path)

    def test_help_and_pages_name_pcm_as_it_is_installed(self):
        self.assertIn("share/pcm/docs/USING.md", self.pcm("help").stdout)
        page = (self.prefix / "share" / "pcm" / "docs" / "USING.md").read_text(encoding="utf-8")
        self.assertIn("in a copy of share/pcm", page)
        self.assertNotIn("tools/build", page)
        told = [self.pcm("help", it).stdout for it in ("run", "stream", "check", "explain", "view", "disk", "parts")]
        self.assertEqual([it.count("./pcm") for it in told], [0] * len(told))
        self.assertIn("usage: python3 -m pcm parts [TRACE]", told[-1])
        self.assertEqual(self.pcm("parts", "--help").stdout, told[-1])

    def test_each_page_of_the_manual_is_there(self):
        there = {it.name for it in (self.prefix / "share" / "man" / "man1").iterdir()}
        self.assertEqual(there, set(pages.MANUAL))
        self.assertLessEqual({"pcm.1", "pcm-stream.1", "pcm-parts.1"}, there)

    def test_what_drivers_include_is_there_and_no_test(self):
        there = {str(it.relative_to(self.prefix)) for folder in ("include", "share/pcm/sv") for it in (self.prefix / folder).iterdir()}
        self.assertEqual(there, {f"include/{it.name}" for it in (TOP / "c").glob("pcm*.h")} | {f"share/pcm/sv/pcm_{it}" for it in ("dpi.sv", "dpi.c", "mem.sv")})
        self.assertLessEqual({"include/pcm_stream.h", "include/pcm_tlm.h", "include/pcm_tlm_at.h"}, there)

    @unittest.skipUnless(HAS_COMPILER, "there is no cc, or no ar")
    def test_programs_in_c_link_the_library_both_ways(self):
        library = self.prefix / "lib"
        self.assertEqual(sorted(it.name for it in library.glob("libpcm*")), ["libpcm.a", "libpcm.so", "libpcm.so.1"])
        with tempfile.TemporaryDirectory() as room:
            (pathlib.Path(room) / "it.c").write_text('#include <pcm.h>\nint main(void) { struct pcm_module it = {0}; return (int)pcm_module_rows(&it); }\n')
            flags = [f"-I{self.prefix}/include", f"-L{library}"]
            subprocess.run(["cc", "it.c", *flags, "-lpcm", f"-Wl,-rpath,{library}", "-o", "shared"], cwd=room, check=True)
            subprocess.run(["cc", "it.c", *flags, "-l:libpcm.a", "-o", "static"], cwd=room, check=True)
            self.assertEqual([subprocess.run([f"{room}/{it}"]).returncode for it in ("shared", "static")], [7, 7])
            if shutil.which("pkg-config"):
                words = ["pkg-config", "--cflags", "--libs", "pcm"]
                around = {"PATH": os.environ["PATH"], "PKG_CONFIG_PATH": str(library / "pkgconfig")}
                told = subprocess.run(words, env=around, capture_output=True, text=True, check=True).stdout
                self.assertIn(" -lpcm", told)

    def test_the_package_finds_the_program_beside_it(self):
        words = "import pcm; print(pcm.program())"
        around = {"PATH": os.environ["PATH"], "PYTHONPATH": str(self.prefix / "share" / "pcm" / "python"), "PYTHONDONTWRITEBYTECODE": "1"}
        done = subprocess.run([sys.executable, "-c", words], capture_output=True, text=True, env=around)
        self.assertEqual(done.stdout, f"['{self.prefix}/share/pcm/pcm']\n", done.stderr)
        self.assertEqual(subprocess.run([self.prefix / "share/pcm/pcm", "map"], capture_output=True, text=True).stdout, "pcm_cli map\n")

    def test_help_says_how_a_copy_is_made_that_works(self):
        line = self.pcm("help").stdout.splitlines()[-1]
        with tempfile.TemporaryDirectory() as room:
            subprocess.run(["sh", "-c", line], cwd=room, check=True)
            told = subprocess.run(["./pcm", "map"], cwd=f"{room}/mine", capture_output=True, text=True)
        self.assertEqual((told.stdout, told.stderr), ("pcm_cli map\n", ""))

    def test_python_finds_the_package_below_a_folder_from_which_it_imports(self):
        base = self.room.folder / "a home"
        around = {"PYTHONUSERBASE": str(base), "PYTHONDONTWRITEBYTECODE": "1"}
        done = self.room.run("tools/install", "--prefix", str(base), top=self.room.folder / "gone", **around)
        self.assertEqual((done.returncode, done.stdout), (0, f"installed pcm in {base}\n"), done.stderr)
        words = [sys.executable, "-c", "import pcm; print(pcm.__file__)"]
        told = subprocess.run(words, capture_output=True, text=True, env={"PATH": os.environ["PATH"], **around}, cwd="/").stdout
        self.assertEqual(told, f"{base}/share/pcm/python/pcm/__init__.py\n")

    def test_what_was_installed_is_removed_and_nothing_else(self):
        prefix = self.room.folder / "another prefix"
        (prefix / "bin").mkdir(parents=True)
        (prefix / "bin" / "other").write_text("")
        gone = self.room.folder / "gone"
        for words in ((), ("--remove",)):
            done = self.room.run("tools/install", *words, "--prefix", str(prefix), top=gone)
            self.assertEqual(done.returncode, 0, done.stderr)
        self.assertEqual([str(it.relative_to(prefix)) for it in prefix.rglob("*")], ["bin", "bin/other"])
        done = self.room.run("tools/install", "--remove", "--prefix", str(prefix), top=gone)
        self.assertEqual((done.returncode, len(done.stderr.splitlines())), (1, 1))
        done = self.room.run("tools/install", "--prefix", "/usr", "--destdir", str(self.room.folder / "stage"), top=gone)
        self.assertEqual(done.returncode, 0, done.stderr)
        self.assertTrue((self.room.folder / "stage" / "usr" / "bin" / "pcm").exists())
        done = self.room.run("tools/install", "--prefix", "/proc/none", top=gone)
        self.assertEqual((done.returncode, len(done.stderr.splitlines())), (1, 1), done.stderr)

    def test_an_archive_has_its_sums_and_how_each_crate_was_proved(self):
        name = f"pcm-{(TOP / 'VERSION').read_text().strip()}-x86_64-linux"
        subprocess.run(["tar", "xzf", f"{name}.tar.gz"], cwd=self.room.folder, check=True)
        tree = self.room.folder / name
        subprocess.run(["sha256sum", "--quiet", "-c", "SHA256SUMS"], cwd=tree, check=True)
        self.assertEqual(subprocess.run([tree / "bin" / "pcm", "map"], capture_output=True, text=True).stdout, "pcm_cli map\n")
        proved = (tree / "PROVED").read_text()
        for crate in ("first", "second", *PROGRAMS):
            self.assertIn(f"\n{crate}: logic=proved functions=1\n", proved)


class WrongBodies(unittest.TestCase):
    """What tools/wrong tries: over the kit that refuses each text with the word 'wrong'."""

    def setUp(self):
        self.room = Room()
        self.addCleanup(shutil.rmtree, self.room.folder, ignore_errors=True)
        for folder, crate, name, new in (
            ("wrong", "second", "one", "wrong"), ("must-fail", "second", "two", "wrong"), ("wrong", "first", "three", "wrong"), ("wrong", "pcm_cli", "let", "right"),
        ):
            path = self.room.top / "crates" / crate / folder
            path.mkdir(exist_ok=True)
            root = "main" if crate == "pcm_cli" else "lib"
            (path / f"{name}.edit").write_text(f"file: src/{root}.rt\nold: -- {crate}\nnew: -- {new}\n")

    def says(self, status, *lines, words=()):
        """(crates are told as they are done)"""
        done = self.room.run("tools/wrong", *words)
        self.assertEqual((done.returncode, sorted(done.stdout.splitlines())), (status, sorted(lines)), done.stderr)

    def test_those_that_the_gate_leaves_out_are_tried(self):
        told = "refused: src/lib.rt:1:1: error: no proof"
        self.says(0, f"first/three: {told}", f"second/one: {told}", "2 passed, 0 failed", words=("first", "second"))
        self.says(0, f"second/two: {told}", f"second/one: {told}", "2 passed, 0 failed", words=("--all", "second"))

    def test_one_that_is_proved_fails_and_so_does_one_that_fits_nowhere(self):
        (self.room.top / "crates" / "pcm_cli" / "wrong" / "misfit.edit").write_text("file: src/main.rt\nold: nothing\nnew: wrong\n")
        self.says(1, "pcm_cli/let: NOT REFUSED: the crate is still proved",
                  "pcm_cli/misfit: NOT TRIED: what it changes doesn't stand once in its file", "0 passed, 2 failed", words=("pcm_cli",))

    def test_those_whose_text_changed_are_tried_again_and_no_release_is_made_before(self):
        told = "refused: src/lib.rt:1:1: error: no proof"
        (self.room.top / "crates" / "pcm_cli" / "wrong" / "let.edit").unlink()
        self.says(1, "2 crates to be tried: first second", words=("--stale", "--list"))
        done = self.room.run("tools/dist", str(self.room.folder))
        self.assertEqual((done.returncode, done.stderr.partition(" no wrong")[0]), (1, "tools/dist: of first, second"))
        self.says(0, "2 crates to be tried: first second", f"first/three: {told}", f"second/one: {told}", "2 passed, 0 failed", words=("--stale",))
        self.says(0, "0 crates to be tried", "0 passed, 0 failed", words=("--stale",))
        lines = (self.room.top / "tools" / "tried.txt").read_text().splitlines()
        self.assertRegex(lines[2], r"\Afirst [0-9a-f]{32} 1 \d{4}-\d\d-\d\d a kit for tests\Z")
        with open(self.room.top / "crates" / "first" / "proofs" / "Lib.antt", "a") as proofs:
            proofs.write("-- another proof\n")
        self.says(1, "1 crates to be tried: first", words=("--stale", "--list"))
        with open(self.room.top / "crates" / "first" / "specs" / "Lib.antt", "a") as specs:
            specs.write("-- another definition\n")
        self.says(1, "2 crates to be tried: first second", words=("--stale", "--list"))

    def test_one_that_is_not_refused_is_not_noted(self):
        self.says(1, "pcm_cli/let: NOT REFUSED: the crate is still proved", "0 passed, 1 failed", words=("pcm_cli",))
        self.assertFalse((self.room.top / "tools" / "tried.txt").exists())

    def test_a_crate_that_is_not_proved_as_it_stands_is_told(self):
        (self.room.top / "crates" / "second" / "src" / "lib.rt").write_text("-- second\n-- wrong\n")
        self.says(1, "second: its check as it stands ended with status 1: logic=not-proved functions=1", "0 passed, 1 failed", words=("second",))


class Unused(unittest.TestCase):
    """What tools/lint finds: in a small repository where all is used, and where one thing of each kind isn't."""

    TEXTS = {
        "crates.txt": "# 1. PARTS\nlow:\nhigh: low\n",
        "crates/low/src/lib.rt": "//! A part.\npub fn part() {}\n", "crates/low/specs/Parts.antt": "pub half : One\nhalf = one\n",
        "crates/low/proofs/Lib.antt": "pub mod Halves\n",
        "crates/low/proofs/Halves.antt": "use Rattle.low.specs.Parts.{half}\n\npub halved : half ≡ half\nhalved = rule\n",
        "crates/high/src/lib.rt": "//! A whole.\npub fn whole() { low::part() }\n", "crates/high/specs/Lib.antt": "-- nothing\n",
        "crates/high/proofs/Lib.antt": "use Rattle.low.proofs.Halves.{halved}\n\n-- by halved\nwhole = halved\n",
        "script.py": "import sys\nimport shared  # noqa: F401\n\nprint(sys.argv)\n", "folder/script": "#!/bin/sh\necho \"$1\"\n",
    }

    def setUp(self):
        self.top = pathlib.Path(tempfile.mkdtemp(prefix="pcm tools ")) / "a clone"
        self.addCleanup(shutil.rmtree, self.top.parent)
        for name in ("edges", "unused", "namesakes", "imports", "lint", "crates.py", "definitions.py"):
            (self.top / "tools").mkdir(parents=True, exist_ok=True)
            shutil.copy(TOP / "tools" / name, self.top / "tools")
        (self.top / "examples").mkdir()
        shutil.copy(TOP / "examples" / "counting.sh", self.top / "examples")
        for path, text in self.TEXTS.items():
            self.write(path, text)

    def write(self, path, text):
        (self.top / path).parent.mkdir(parents=True, exist_ok=True)
        (self.top / path).write_text(text)

    def lint(self):
        done = subprocess.run([self.top / "tools" / "lint"], capture_output=True, text=True)
        told = [it for it in done.stdout.splitlines() if "skipped" not in it]
        self.assertEqual(done.returncode, int(" 0 failed" not in told[-1]), done.stderr)
        return told[:-1]

    def planted(self, path, text, *said):
        before = self.TEXTS.get(path)
        self.write(path, text)
        self.assertEqual(self.lint(), list(said))
        self.write(path, before) if before else (self.top / path).unlink()

    def test_where_all_is_used_nothing_is_said(self):
        self.assertEqual(self.lint(), [])

    def test_what_stands_twice_is_listed(self):
        shutil.copy(TOP / "tools" / "twins", self.top / "tools")
        lines = [f"step {number}\n" for number in range(6)]
        self.write("crates/low/proofs/Halves.antt", f"-- one\n{''.join(lines)}")
        self.write("crates/high/proofs/Lib.antt", f"use Rattle.low\nbefore\n{''.join(lines[:3])}-- more\n\n{lines[3]}behind\n{''.join(lines[:3])}")
        asked = [subprocess.run([self.top / "tools" / "twins", least], capture_output=True, text=True).stdout.splitlines() for least in "345"]
        pairs = ["low/proofs/Halves.antt:2 high/proofs/Lib.antt:3", "low/proofs/Halves.antt:2 high/proofs/Lib.antt:10", "high/proofs/Lib.antt:3 high/proofs/Lib.antt:10"]
        self.assertEqual(asked, [[f"4 lines: {pairs[0]}", f"3 lines: {pairs[2]}", f"3 lines: {pairs[1]}"], [f"4 lines: {pairs[0]}"], []])

    def test_a_library_a_lemma_and_an_import_that_nothing_uses(self):
        self.planted("crates.txt", "# 1. PARTS\nlow:\nhigh: low hex\n", "high: hex", "tools/lint: libraries that no file of their crate cites: failed")
        lemma = f"{self.TEXTS['crates/low/proofs/Halves.antt']}\npub doubled : half ≡ half\ndoubled = rule\n"
        self.planted("crates/low/proofs/Halves.antt", lemma, "crates/low/proofs/Halves.antt: doubled", "tools/lint: lemmas that nothing names: failed")
        imports = "use Rattle.low.specs.Parts.{half, ◌+◌}\nuse Rattle.low.specs.Parts as parts\npub use Rattle.low.specs.Parts.{half}\n\n-- half\nother = 1 + 1\n"
        self.planted("crates/high/specs/Lib.antt", imports, "crates/high/specs/Lib.antt: names nowhere Rattle.low.specs.Parts.half",
                     "tools/lint: imports that their file names nowhere: failed")

    def test_a_type_of_one_name_in_two_crates(self):
        half, other = "crates/low/src/half.rt", "crates/high/src/half.rt"
        self.write(half, "/// A half.\npub struct Half;\n\nimpl Part for Half {\n    type Whole = Half;\n}\n")
        self.write("crates/low/src/lib.rt", f"{self.TEXTS['crates/low/src/lib.rt']}struct Half;\n")
        named = lambda text: (self.write(other, text), subprocess.run([self.top / "tools" / "namesakes"], capture_output=True, text=True).stdout)[1]
        for text in ("struct Halves;", "// struct Half", "fn half() -> Half {}", "    type Half = u8;", "struct Whole;"):
            self.assertEqual(named(text), "")
        for text in ("struct Half<T> {}", "pub enum Half {", "\n\npub(crate) type Half = u8;", "trait Half {", "pub unsafe trait Half {"):
            self.assertEqual(named(text), f"Half: {half} {other}\n")
        self.assertEqual(self.lint(), [f"Half: {half} {other}", "tools/lint: types of one name in two crates: failed"])

    @unittest.skipUnless(shutil.which("pyflakes3") or shutil.which("pyflakes"), "there is no pyflakes3")
    def test_a_module_that_a_script_of_python_imports_for_nothing(self):
        self.planted("folder/more", "#!/usr/bin/env python3\nimport os\n", "./folder/more:2:1: 'os' imported but unused", "tools/lint: Python: failed")

    @unittest.skipUnless(shutil.which("shellcheck"), "there is no shellcheck")
    def test_a_fault_of_a_shell_script(self):
        self.write("folder/more.sh", "#!/bin/sh\ncd /tmp\n")
        self.assertIn("In ./folder/more.sh line 2:", self.lint())


def can_mount():
    asked = ["unshare", "-m", "true"] if os.geteuid() == 0 else ["unshare", "-r", "-m", "true"]
    return bool(shutil.which("unshare") and shutil.which("git")) and subprocess.run(asked, capture_output=True).returncode == 0


class Measured(unittest.TestCase):
    """What bench/gate runs: in a repository whose commands say what is kept as they begin, and keep their names."""

    def setUp(self):
        self.folder = pathlib.Path(tempfile.mkdtemp(prefix="pcm tools "))
        self.addCleanup(shutil.rmtree, self.folder)
        self.top, self.kept = self.folder / "repo", self.folder / "rattle-kept"
        (self.folder / "kit" / "bin").mkdir(parents=True)
        Room.script(self.folder / "kit" / "bin" / "rt", f"#!/bin/sh\necho '{self.folder}/kit/START-HERE.md'\n")
        self.kept.mkdir()
        (self.kept / "own").write_text("")
        shutil.copytree(TOP / "bench", self.top / "bench", ignore=shutil.ignore_patterns("__pycache__"))
        for path in ("pcm", ".ci/run", "tools/test"):
            (self.top / path).parent.mkdir(exist_ok=True)
            says = f"echo {path} $(ls '{self.kept}') over $(ls \"$XDG_CACHE_HOME\"), ${{CI:-no CI}}"
            Room.script(self.top / path, f"#!/bin/sh\n{says}\n: >'{self.kept}'/{pathlib.Path(path).name} >\"$XDG_CACHE_HOME\"/cached\n")
        (self.top / "VERSION").write_text("1.0.0\n")
        (self.top / "docs").mkdir()
        (self.top / "docs" / "FIGURES.md").write_text("# Figures\n\n<!-- gate -->\n<!-- /gate -->\n")
        self.around = {**os.environ, "PATH": f"{self.folder}/kit/bin:{os.environ['PATH']}", "CI": "true"}
        author = ("-c", "user.name=tests", "-c", "user.email=tests@example.org")
        for words in (("init", "-q"), ("add", "."), (*author, "commit", "-q", "-m", "first"), ("rm", "-q", "tools/test"), (*author, "commit", "-q", "-m", "second")):
            subprocess.run(["git", *words], cwd=self.top, check=True)

    def gate(self, *words):
        done = subprocess.run([self.top / "bench" / "gate", *words], env=self.around, capture_output=True, text=True)
        self.assertEqual(done.returncode, 0, done.stderr)
        return done.stdout.splitlines()

    @unittest.skipUnless(can_mount(), "there is no unshare that may mount")
    def test_each_commit_begins_with_nothing_kept_and_the_gate_behind_a_build_finds_what_it_kept(self):
        told = [it.rpartition("): ")[2] for it in self.gate("--commit", "HEAD~1", "--baseline", "HEAD")]
        first = ["pcm over , no CI", ".ci/run pcm over cached, no CI", "tools/test pcm run over cached, no CI", ".ci/run over , no CI"]
        self.assertEqual(told, [*first, *(it for it in first if not it.startswith("tools/test"))])
        self.assertEqual([it.name for it in self.kept.iterdir()], ["own"])
        page = (self.top / "docs" / "FIGURES.md").read_text()
        self.assertRegex(page, r"\| commit \| `./pcm` \| the gate behind it \| `tools/test` alone \| the gate from nothing \|\n\| --- (\| --- ){4}\|\n")
        self.assertRegex(page, r"\n\| [0-9a-f]{8}, 1.0.0 (\| 0.0 \(0.0\) ){4}\|\n\| [0-9a-f]{8}, 1.0.0 (\| 0.0 \(0.0\) ){2}\| \| 0.0 \(0.0\) \|\n")

    def test_a_dry_run_prints_the_commands_alone(self):
        told = self.gate("--dry", "--cpus", "0,1", "--baseline", "none", "--steps", "nothing", "build")
        self.assertEqual([it.split(": ")[1] for it in told], ["build", "nothing"])
        self.assertTrue(all("nothing kept: unshare" in it and " taskset -c 0,1 " in it for it in told), told)
        self.assertNotIn("commit", (self.top / "docs" / "FIGURES.md").read_text())


class Pages(unittest.TestCase):
    def test_the_manual_says_what_the_help_says(self):
        self.assertEqual(list(pages.faults()), [])
        text = " ".join(pages.read_of(pages.manual()))
        self.assertIn("--psi N (100; 1 to 65535). A region's gap moves once", text)

    def test_the_manual_is_read_without_a_warning(self):
        if not shutil.which("man"):
            self.skipTest("there is no man")
        for name in (*pages.MANUAL, *pages.FIRMWARE):
            around = {**os.environ, "LC_ALL": "C.UTF-8", "MANWIDTH": "80"}
            done = subprocess.run(["man", "--warnings", "-l", "-"], input=pages.PAGES[name](), capture_output=True, text=True, env=around)
            self.assertEqual((done.returncode, done.stderr), (0, ""))

    def test_a_manual_that_is_made_of_help_says_all_of_it(self):
        for name, told in (("pcm-parts.1", pages.help_of_parts()), ("cut-firmware.1", pages.help_of_firmware())):
            said = " ".join(pages.read_of(pages.PAGES[name]()))
            plain = re.sub(r"(?m)^usage: .*\n\n", "", told.replace("./pcm", "pcm").replace("`", ""))
            self.assertIn(" ".join(plain.split()), said)
            self.assertGreater(pages.PAGES[name]().count(".TP\n"), 9, name)

    def test_the_completion_for_zsh_is_read(self):
        if not shutil.which("zsh"):
            self.skipTest("there is no zsh")
        done = subprocess.run(["zsh", "-fn", "/dev/stdin"], input=pages.zsh(), capture_output=True, text=True)
        self.assertEqual((done.returncode, done.stderr), (0, ""))

    def test_bash_completes_commands_options_and_values(self):
        wanted = {
            "pcm st": ["stream"], "pcm run --pol": ["--policy"], "pcm run --policy c": ["cancel"], "pcm run --policy = c": ["cancel"],
            "pcm run --psi 5 --ps": [], "pcm help mo": ["moves"], "pcm path ": ["stream", "explain", "view", "disk"], "pcm stream --print s": ["summary", "snapshots"],
            "pcm run --print s": ["summary"], "pcm run --psi ": [], "pcm show ": ["--help"], "pcm run --banks 1": ["1", "16"],
            "pcm e": ["explain"], "pcm explain --p": ["--policy"], "pcm explain --policy c": ["cancel"], "pcm explain --a": ["--all"],
            "pcm explain --all --a": [], "pcm explain --all --li": ["--lines", "--line"], "pcm stream --pro": ["--progress"],
        }
        for line, found in wanted.items():
            words = line.split(" ")
            state = f"COMP_WORDS=({' '.join(repr(it) for it in words)}); COMP_CWORD={len(words) - 1}"
            script = f'{pages.bash()}\n{state}; _pcm; echo "${{COMPREPLY[@]}}"'
            done = subprocess.run(["bash", "-c", script], capture_output=True, text=True)
            self.assertEqual((done.stdout.split(), done.stderr), (found, ""), line)


class Words(unittest.TestCase):
    def test_the_first_thing_that_is_wrong_is_named(self):
        wanted = {
            "run --polcy pause": "--polcy is no option of run (did you mean --policy?)",
            "run --hi 5": "--hi 5 is below --lo 100000000 (its default): give both, --lo not above --hi",
            "run -p 3": "-p: options are whole words with two dashes, as --psi, --policy, --print or --progress",
            "run --lines 100": "--lines 100: it may be a power of two, 4 to 4096; nearest are 64 and 128",
            "run --psi 1 --psi=2": "--psi stands twice",
            "run --psi": "--psi lacks its value: it may be 1 to 65535",
            "gen --psi 3": "--psi is no option of gen, but of run, stream or disk",
            "run --print rows": "--print rows: it may be results, summary, wear or image (rows is for stream)",
            "stream --every 5": "--every belongs to --print snapshots alone",
            "stream --tell shape --print wear": "--tell belongs to --print rows alone",
            "stream --tell": "--tell lacks its value: it may be nothing, shape or module",
            "run --tell shape": "--tell is no option of run, but of stream",
            "stream --skip unpulsed": "--skip belongs to --print wear or lines alone",
            "stream --print lines --skip pulsed": "--skip pulsed: it may be nothing or unpulsed (did you mean unpulsed?)",
            "rum": "there is no command rum (did you mean run?)",
            "explian": "there is no command explian (did you mean explain?)",
            "explain --psi 5": "--psi is no option of explain, but of run, stream or disk",
            "explain --al": "--al is no option of explain (did you mean --all?)",
            "explain --all=3": "--all=3: --all has no value",
            "check --all": "--all is no option of check, but of explain",
            "explain --lines 100": "--lines 100: it may be a power of two, 4 to 4096; nearest are 64 and 128",
            "view --lines 4": "--lines: view has no options",
            "run --lines 8192": "--lines 8192: it may be a power of two, 4 to 4096 (stream takes it)",
            "run --banks 64": "--banks 64: it may be 1, 2, 4, 8 or 16 (stream takes it)",
            "run --banks 128": "--banks 128: it may be 1, 2, 4, 8 or 16",
            "run --rows 500000": "--rows 500000: it may be 1 to 400000 (stream takes it)",
            "run --banks 16 --regions 2 --lines 4096":
                "banks x regions x lines are 131072: a module of run has at most 65536 lines (stream takes it)",
            "gen --lines=8192": "--lines 8192: it may be a power of two, 4 to 4096 (stream --input drawn takes it)",
            "map --lines 8192": "--lines 8192: it may be a power of two, 4 to 4096 (stream --print map takes it)",
            "check --lines 8192": "--lines 8192: it may be a power of two, 4 to 4096",
            "stream --banks 64 --regions 64 --lines 32768":
                "banks x regions x lines are 134217728: a module of stream has at most 67108864 lines",
            "disk --rows 5": "--rows is no option of disk, but of run, gen or stream",
            "disk --sector 100": "--sector 100: it may be a power of two, 64 to 16384; nearest are 64 and 128",
            "disk --sector 64 --line 128": "--sector 64 is below --line 128",
            "disk --sector 16384 --banks 1 --regions 1":
                "--sector 16384: a module of 64 lines has no room for one, another to write it to, and their map",
            "disk --cuts 3 --cut-ticks 5": "--cuts draws the ticks of power cuts, and --cut-ticks names them: give one of the two",
            "disk --cut-ticks 5,5": "--cut-ticks 5,5: it may be rising numbers with commas between them, 1 to 1099511627776",
            "disk --on-cut stop": "--on-cut stop: it may be drop or ride",
            "disk --lines 8192 --cut-ticks 5,6 --on-cut ride": None,
            "run": None,
            "stream --print snapshots --every 5 --rows=4000000000 --step 0 --input drawn": None,
            "stream --print wear --skip=unpulsed": None,
            "stream --lines 8192 --print image": None,
        }
        for words, said in wanted.items():
            self.assertEqual(pages.table().explain(words.split(), "usage: pcm\n"), said, words)

    def test_a_faulty_row_is_found_in_its_file(self):
        head, line = "tick,op,arg,data\n", "ab" * 64
        wanted = [
            (f"{head}0,R,0,\n\n5,R,0,,\n", "run", "trace row 2: fields", "line 4: it has 5 fields, and must have four: tick,op,arg,data"),
            (f"{head}0,R,0,row,op,line,outcome,tick,place,data\n1,R,0,read,5,3,{line}\n", "check", "trace row 1: fields",
             "line 2: the header of results stands in it: the trace's last line must be ended before them"),
            (f"{head}0,R,0,\n5,S,,\n6,X,0,\n", "stream", "trace row 2: op", "line 4: the second field must be R, W, M, C, S, Q, U, L or P, and is 'X'"),
            (f"{head}0,R,0,\n5,U,1,\n", "run", "trace row 2: op",
             "line 3: the second field must be R, W, M or C, and is 'U' (U, a settle until, is a stream's alone)"),
            *((f"{head}0,R,0,\n7,R,0,\n9,U,2,\n7,R,0,\n{rows}", "stream", f"trace row {at}: {kind}", said) for rows, at, kind, said in (
                ("8,U,4,\n", 4, "line", "line 6: the third field of U must be the number of a row that came before, 1 to 3, and is '4'"),
                ("8,U,,0\n", 4, "payload", "line 6: the fourth field of U must be empty, and is '0'"),
                ("8,U,03,0\n", 4, "payload", "line 6: the fourth field of U must be empty, and is '0'"),
                ("8,U,0000000003,\n6,C,,\n", 4, "order", "line 7: its tick 6 is below 7, the tick of the row before (line 5)"),
                ("", 3, "order", "line 5: its tick 7 is below the one that the settle until of line 4 reached"),
                ("20,U,1,\n8,U,1,\n9,C,,\n", 4, "order", "line 7: its tick 8 is below the one that the settle until of line 6 reached"),
                ("20,U,1,\n15,U,1,\n9,C,,\n", 4, "order", None),
                ("20,U,1,\n8,C,,\n9,C,,\n", 4, "order", "line 7: its tick 8 is below the one that the settle until of line 6 reached"),
                ("20,U,1,\n8,C,,\n9,C,,\n", 5, "order", None),
            )),
            (f"{head}0,L,0,\n", "stream", "trace row 1: line", "line 2: the third field of L must be empty, and is '0'"),
            (f"{head}0,R,0,\n5,P,1,\n", "run", "trace row 2: op",
             "line 3: the second field must be R, W, M or C, and is 'P' (P, a peek, is a stream's alone)"),
            (f"{head}0,P,512,\n", "stream", "trace row 1: line",
             "line 2: the third field must be a line, 0 to 511 (banks x regions x lines are 512) in at most 5 digits, and is '512'"),
            (f"{head}0,P,1,0\n", "stream", "trace row 1: payload", "line 2: the fourth field of P must be empty, and is '0'"),
            (f"{head}9,U,1,\n", "stream", "trace row 1: line",
             "line 2: the third field of U must be the number of a row that came before, and none did, and is '1'"),
            (f"{head}0,W,5,{line[:-1]}g\n", "run", "trace row 1: payload",
             "line 2: the fourth field has 'g' behind 127 characters, where it must be hexadecimal digits"),
            (f"{head}0,R,000005,\n", "stream", "trace row 1: line",
             "line 2: the third field must be a line, 0 to 511 (banks x regions x lines are 512) in at most 5 digits, and is '000005'"),
            ("", "run", "trace row 0: header", "the file is empty: a trace begins with tick,op,arg,data"),
            (f"\ufeff{head}-1,R,0,\n", "run", "trace row 1: tick",
             "line 2: the first field must be a tick, 0 to 1099511627776 in digits, and is '-1'"),
            (f"{head}0,R,0,\nrow,op,line,outcome,tick,place,data\n1,R,0,read,5,5,\r\n", "check", "results row 1",
             "line 4: it ends with CRLF, and must end with LF"),
            *((f"{head}0,R,0,\n7,W,2,{line}\n8,C,,\nrow,op,line,outcome,tick,place,data\n1,R,0,busy,0,,\n{row}\n", "check",
               f"results row {at}", f"line {5 + at}: {said}")
              for row, at, said in (
                  ("3,W,2,queued,7,,", 2, "the first field must be 2, the row's number, and is '3'"),
                  ("2,R,2,queued,7,,", 2, "the second field must be W, as in the trace, and is 'R'"),
                  ("2,W,1,queued,7,,", 2, "the third field must be 2, as in the trace, and is '1'"),
                  ("2,W,2,busy,7,,", 2, "the fourth field of W may be stored, merged, queued, full or worn (busy is of R)"),
                  ("2,W,2,queud,7,,", 2, "the fourth field of W may be stored, merged, queued, full or worn (did you mean queued?)"),
                  ("2,W,2,queued,07,,", 2, "the fifth field must be a tick of at most 15 digits, without a zero in front, and is '07'"),
                  ("2,W,2,queued,7,1,", 2, "the sixth field of queued must be empty, and is '1'"),
                  ("2,W,2,stored,7,,", 2, "the sixth field of stored must be an array line, 0 to 98831, and is ''"),
                  ("2,W,2,queued,7,,ab", 2, "the seventh field of queued must be empty, and is 'ab'"),
              )),
            (f"{head}0,R,0,\nrow,op,line,outcome,tick,place,data\n1,R,0,read,5,5,AB\n", "check", "results row 1",
             "line 4: the seventh field of read must be 128 lower-case hexadecimal digits, and is 'AB' with 2 characters"),
            (f"{head}0,R,0,\nrow,op,line,outcome,tick,place,data\n1,R,0,busy,0,,\n2,R,0,busy,0,,\n", "check", "results row 2",
             "line 5: it follows the results of the trace's last row"),
            (f"{head}0,R,0,\n", "run", "trace row 1: op", None),
        ]
        with tempfile.TemporaryDirectory() as room:
            for text, command, line, said in wanted:
                path = pathlib.Path(room, "trace")
                path.write_text(text, encoding="utf-8", newline="")
                self.assertEqual(pages.table().explain([command], f"{line}\n", str(path)), said, text)


class Watching(unittest.TestCase):
    """A program that is watched: its bytes, its status and its signals are its own."""

    def watch(self, script, *words, **how):
        with tempfile.TemporaryDirectory() as room:
            program = pathlib.Path(room, "a program")
            Room.script(program, f"#!/bin/sh\n{script}\n")
            asked = [sys.executable, "-B", TOP / "python" / "pcm" / "watching.py", program, "stream", "--progress", *words]
            return subprocess.run(asked, stderr=subprocess.PIPE, text=True, timeout=600, **{"stdout": subprocess.PIPE, **how})

    def test_bytes_words_and_status_are_the_programs(self):
        done = self.watch("echo \"$@\"; echo trouble >&2; exit 3", "--psi", "5")
        self.assertEqual((done.returncode, done.stdout, done.stderr), (3, "--psi 5\n", "trouble\n"))
        self.assertEqual(self.watch("kill -KILL $$").returncode, -signal.SIGKILL)

    def test_a_fault_of_writing_is_the_programs(self):
        with open("/dev/full", "w") as full:
            done = self.watch("while echo row; do :; done; exit 5", stdout=full)
        self.assertEqual((done.returncode, done.stderr), (5, "write fault\n"))

    def test_a_signal_goes_to_the_program_and_nothing_that_it_printed_is_lost(self):
        done = self.watch("echo one; sleep 0.2; kill -INT $PPID; exec sleep 5")
        self.assertEqual((done.returncode, done.stdout, done.stderr), (-signal.SIGINT, "one\n", ""))

    def test_it_tells_how_far_it_is(self):
        done = self.watch("echo header; echo 5000,1; sleep 1.4; echo 6000,2", "--print", "snapshots")
        self.assertEqual(done.stdout, "header\n5000,1\n6000,2\n")
        self.assertRegex(done.stderr, r"^5,000 rows, [0-9,]+ a second\n")
        done = self.watch("echo header; echo 5000,1; sleep 1.4", "--input=drawn", "--rows=4")
        self.assertRegex(done.stderr, "^1 rows, .* a second, 25%, about")

    def test_of_what_prints_in_the_end_it_tells_the_time(self):
        done = self.watch("sleep 1.4; echo rows 5", "--print", "summary", stdin=subprocess.DEVNULL)
        self.assertEqual(done.stdout, "rows 5\n")
        self.assertRegex(done.stderr, r"^1 s\n$")
        with tempfile.TemporaryFile() as trace:
            trace.write(bytes(1000))
            trace.flush()
            trace.seek(0)
            done = self.watch("head -c 500 >/dev/null; sleep 1.4", "--print", "summary", stdin=trace)
        self.assertRegex(done.stderr, r"^1 s, (50|100)%")


class Tested(unittest.TestCase):
    """What tools/test calls, and what it says of programs that aren't built."""

    def setUp(self):
        self.top = pathlib.Path(tempfile.mkdtemp(prefix="pcm tools ")) / "a clone"
        self.addCleanup(shutil.rmtree, self.top.parent)
        for path in ("tools/test", "examples/counting.sh"):
            (self.top / path).parent.mkdir(parents=True, exist_ok=True)
            shutil.copy(TOP / path, self.top / path)
        (self.top / "crates" / "low" / "src").mkdir(parents=True)
        (self.top / "crates" / "low" / "specs").mkdir()
        (self.top / "docs").mkdir()
        counts = "echo '2 passed, 0 failed'"
        for path, does in (
            ("tools/lint", counts), ("tools/test_tools.py", "echo 'Ran 3 tests in 0s'"), ("docs/test_checking.py", "echo 'Ran 4 tests in 0s'"),
            ("docs/check", f'printf "documents: %s\\n" "$*"; {counts}'), ("examples/check", f'printf "examples:"; printf " (%s)" "$@"; echo; {counts}'),
            ("examples/library/check", f'printf "library: %s\\n" "$*"; {counts}'), ("examples/disk/check", f'printf "disk: %s\\n" "$*"; {counts}'), ("tools/wrong", "echo '1 crates to be tried: low'; exit 1"),
        ):
            (self.top / path).parent.mkdir(exist_ok=True)
            Room.script(self.top / path, f"#!/bin/sh\n{does}\n")

    def build(self, *names):
        for name in names:
            (self.top / "crates" / name / "out").mkdir(parents=True, exist_ok=True)
            Room.script(self.top / "crates" / name / "out" / name, "")

    def says(self, *lines):
        done = subprocess.run([self.top / "tools" / "test"], capture_output=True, text=True)
        self.assertEqual((done.returncode, done.stdout.splitlines()), (0, list(lines)), done.stderr)

    def test_with_all_programs(self):
        self.build(*PROGRAMS)
        (self.top / "crates" / "pcm_c" / "out").mkdir(parents=True)
        (self.top / "crates" / "pcm_c" / "out" / "libpcm.so.1").touch()
        files = [f"crates/{name}/out/{name}" for name in PROGRAMS]
        told = [f"documents: {files[0]}", f"examples: {' '.join(f'({it})' for it in files[:4])}", f"disk: {files[4]} {files[1]}", "tools/test: wrong bodies of wrong/: 1 crates to be tried: low"]
        library = f"library: {files[1]}"
        self.says(library, *told, "17 passed, 0 failed")
        (self.top / "crates" / "low" / "src" / "lib.rt").write_text("")
        os.utime(self.top / "crates" / "low" / "src" / "lib.rt", (2**31, 2**31))
        old = [f"tools/test: {it} is older than some text: it is tried as it is" for it in (*files, "crates/pcm_c/out/libpcm.so.1")]
        self.says(*old, library, *told, "17 passed, 0 failed")

    def test_without_some(self):
        self.build("pcm_cli", "pcm_explain")
        lacks = [f"tools/test: what wants {it}: skipped: it isn't built (tools/build {it})" for it in ("pcm_stream", "pcm_view", "pcm_disk")]
        lacks.append("tools/test: what wants libpcm: skipped: it isn't built (tools/build library)")
        lacks.append("tools/test: commands that documents show: skipped: not all programs are built")
        told = ["documents: ", "examples: (crates/pcm_cli/out/pcm_cli) () (crates/pcm_explain/out/pcm_explain) ()"]
        self.says(*lacks, *told, "tools/test: wrong bodies of wrong/: 1 crates to be tried: low", "13 passed, 0 failed, 5 skipped")


class Counting(unittest.TestCase):
    """What the checks of examples/ count, in each shell that is here."""

    SHELLS = [it for it in (["sh"], ["bash"], ["busybox", "sh"]) if shutil.which(it[0])]
    CHECKS = [it for it in sorted((TOP / "examples").rglob("*")) if it.is_file() and b"counting.sh\"\n" in it.read_bytes()]

    def setUp(self):
        self.room = pathlib.Path(tempfile.mkdtemp(prefix="pcm tools "))
        self.addCleanup(shutil.rmtree, self.room)
        (self.room / "rooms").mkdir()

    def start(self, *words):
        """In a session of its own, where a signal goes to all that was started."""
        how = {"stdin": subprocess.DEVNULL, "stdout": subprocess.PIPE, "stderr": subprocess.STDOUT, "text": True, "start_new_session": True}
        return subprocess.Popen(words, env={**os.environ, "TMPDIR": str(self.room / "rooms")}, cwd="/", **how)

    def check(self, shell, text):
        script = self.room / "a check"
        script.write_text(f". '{TOP}/examples/counting.sh'\nbegins examples/some\n{text}\nended\n")
        return self.start(*shell, script)

    def says(self, text, *lines, status):
        for shell in self.SHELLS:
            with self.subTest(shell):
                done = self.check(shell, text)
                self.assertEqual(done.communicate()[0].splitlines(), list(lines))
                self.assertEqual((done.returncode, list((self.room / "rooms").iterdir())), (status, []))

    def test_what_passes_is_counted(self):
        self.says("holds one true\nsame two 'a  b' 'a  b'\npassed", "3 passed, 0 failed", status=0)

    def test_what_fails_is_told_with_its_reason(self):
        self.says("holds one true\nholds 'a command' sh -c 'echo why; echo more >&2; exit 3'\nsame texts one two\nfailed other 'no reason'",
                  "why", "more", "examples/some: a command: failed", "examples/some: texts: wanted 'one', got 'two'",
                  "examples/some: other: no reason", "1 passed, 3 failed", status=1)

    def test_what_is_skipped_is_named(self):
        self.says("passed\nskipped 'a part' 'there is no tool here'", "examples/some: a part: skipped: there is no tool here",
                  "1 passed, 0 failed, 1 skipped", status=0)

    def test_a_check_of_its_own_is_counted_here(self):
        self.says("passed\ncounted one printf 'why\\n2 passed, 1 failed, 3 skipped\\n'\ncounted two echo '5 passed, 0 failed'", "why",
                  "8 passed, 1 failed, 3 skipped", status=1)

    TESTS = """import unittest
class Some(unittest.TestCase):
    def test_right(self):
        '''What this shows.'''
    def test_parts(self):
        for part in range(3):
            with self.subTest(part):
                self.assertLess(part, {most})
    def test_tool(self):
        '''What this would show.'''
        self.skipTest("there isn't a tool")
    @unittest.skip('no "tool" here')
    def test_other(self):
        pass
unittest.main()
"""

    def test_tests_of_unittest_are_counted_one_by_one(self):
        (self.room / "tests.py").write_text(self.TESTS.format(most=3))
        self.says(f"passed\ntested tests '{sys.executable}' '{self.room}/tests.py' -v", 'examples/some: tests: skipped: no "tool" here',
                  "examples/some: tests: skipped: there isn't a tool", "3 passed, 0 failed, 2 skipped", status=0)

    def test_tests_of_unittest_that_fail_are_counted(self):
        (self.room / "tests.py").write_text(self.TESTS.format(most=1))
        for shell in self.SHELLS:
            with self.subTest(shell):
                done = self.check(shell, f"passed\ntested tests '{sys.executable}' '{self.room}/tests.py' -v\ntested none '{sys.executable}' -c 'x'\ntested empty true")
                said = done.communicate()[0].splitlines()
                self.assertEqual(done.returncode, 1)
                self.assertIn("examples/some: tests: failed", said)
                self.assertEqual(said[-2:], ["examples/some: empty: no test ran", "1 passed, 4 failed, 2 skipped"])

    def test_a_check_that_breaks_off_fails(self):
        self.says("counted one sh -c 'echo 1 passed, 0 failed; exit 3'\ncounted two echo 5 passed\ncounted three false",
                  "examples/some: one: status 3, though nothing failed", "5 passed", "examples/some: two: broken off, status 0",
                  "examples/some: three: broken off, status 1", "1 passed, 3 failed", status=1)

    def test_a_signal_ends_a_check_and_takes_its_folder_away(self):
        for shell in self.SHELLS:
            for number in (signal.SIGINT, signal.SIGTERM, signal.SIGHUP):
                with self.subTest((shell, number)):
                    done = self.check(shell, """holds one sh -c ': >"$1/begun" && exec sleep 60' sh "$room"; holds two sleep 60""")
                    while not list(self.room.glob("rooms/*/begun")) and done.poll() is None:
                        time.sleep(0.01)
                    os.killpg(done.pid, number)
                    self.assertNotIn("passed", done.communicate(timeout=30)[0])
                    self.assertEqual((done.returncode, list((self.room / "rooms").iterdir())), (128 + number, []))

    def test_each_check_tells_its_words(self):
        self.assertGreater(len(self.CHECKS), 15)
        for check in self.CHECKS:
            with self.subTest(check):
                done = self.start(check)
                self.assertRegex(done.communicate()[0], fr"\A.*: usage: {check.relative_to(TOP)} \S.*\n\Z")
                self.assertNotEqual(done.returncode, 0)

    def test_no_other_script_counts(self):
        scripts = [it for it in (TOP / "examples").rglob("*") if it.is_file() and it.read_bytes()[:20].partition(b"\n")[0].endswith(b"sh")]
        self.assertEqual([it for it in scripts if " passed, " in it.read_text()], [])


@unittest.skipUnless(shutil.which("cc"), "there is no C compiler")
class Refused(unittest.TestCase):
    """What is noticed of a program that prints what it reads, where its calls fail."""

    PROGRAM = """
#include <string.h>
#include <unistd.h>
static char bytes[64];
static int fault(int status, const char *line) { return write(2, line, strlen(line)) < 0 ? 5 : status; }
int main(void) {
    ssize_t held = 0, done = 0, count;
    while ((count = read(0, bytes + held, sizeof bytes - held)) != 0) {
        if (count < 0) READ_FAILED;
        held += count;
    }
    for (; done < held; done += count) {
        count = write(1, bytes + done, held - done);
        if (count < 0) WRITE_FAILED;
    }
    return 0;
}
"""
    TELLS = {"READ_FAILED": 'return fault(4, "read fault\\n")', "WRITE_FAILED": 'return fault(5, "write fault\\n")'}

    def setUp(self):
        self.room = pathlib.Path(tempfile.mkdtemp(prefix="pcm tools "))
        self.addCleanup(shutil.rmtree, self.room)

    def noticed(self, **does):
        """What is noticed of its reads and of its writes, each by the calls that are refused."""
        defined = [f"-D{name}={text}" for name, text in {**self.TELLS, **does}.items()]
        subprocess.run(["cc", *defined, "-x", "c", "-", "-o", self.room / "program"], input=self.PROGRAM, text=True, check=True)
        run = refusing.Run(str(self.room / "program"), "it", "", b"one\ntwo\n")
        library = refusing.Refusing(self.room, "cc")
        for kind in (refusing.Reads, refusing.Writes):
            with contextlib.redirect_stderr(io.StringIO()) as said:
                trial = kind(library, run, 100)
            self.assertGreater(trial.tried, 10)
            self.assertEqual(trial.wrong(), len(said.getvalue().splitlines()))
            yield said.getvalue()

    def test_faults_that_are_told_pass(self):
        self.assertEqual(list(self.noticed()), ["", ""])

    def test_a_failed_read_that_is_swallowed_is_noticed(self):
        reads, writes = self.noticed(READ_FAILED="break")
        self.assertIn("it: reads: REFUSE=1: status 0, 0 bytes", reads)
        self.assertEqual(writes, "")

    def test_a_failed_write_that_counts_as_done_is_noticed(self):
        reads, writes = self.noticed(WRITE_FAILED="return 0")
        self.assertEqual(reads, "")
        self.assertIn("it: writes: REFUSE=1: status 0, 0 bytes", writes)


if __name__ == "__main__":
    sys.exit(unittest.main())
