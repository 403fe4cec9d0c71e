#!/usr/bin/env python3
"""Tests of docs/checking.py and docs/trees.py: each part takes what is right, and names what is stale."""
import pathlib
import sys
import tempfile
import unittest
from unittest import mock

sys.dont_write_bytecode = True
import checking
import definitions
import staging
import trees


class Commands(unittest.TestCase):
    def test_a_command_has_its_further_lines_and_its_output(self):
        lines = ["text", "    $ ./pcm run \\", "    > --psi 1", "    row,op", "    1,W", "    $ true", "", "    $ false"]
        found = list(checking.blocks(lines))
        self.assertEqual(found, [("./pcm run \\\n--psi 1", 3, 5, "    "), ("true", 6, 6, "    "), ("false", 8, 8, "    ")])

    def test_a_block_of_sh_is_run_where_a_block_of_text_has_its_output(self):
        lines = ["```sh", "not run", "```", "", "```sh", "one", "two", "```", "```text", "out", "```", "```sh", "quiet", "```", "```text", "```"]
        self.assertEqual(list(checking.blocks(lines)), [("one\ntwo", 9, 10, ""), ("quiet", 15, 15, "")])

    def test_digits_of_a_whole_line_are_cut_short(self):
        self.assertEqual(checking.shortened("1,read," + "ab" * 64), ["1,read,ab..ab"])
        self.assertEqual(checking.shortened("ab" * 60), ["ab" * 60])

    def test_three_points_stand_for_any_lines(self):
        self.assertTrue(checking.matches(["a", "...", "d"], ["a", "b", "c", "d"]))
        self.assertTrue(checking.matches(["a", "..."], ["a"]))
        self.assertFalse(checking.matches(["a", "...", "d"], ["a", "b"]))


class Places(unittest.TestCase):
    def test_a_figure_of_a_machine_is_found_but_where_figures_stand(self):
        pages = {"docs/USING.md": "It takes 16 seconds, for 64 MiB.\n\n    sleep 5 s\n", "docs/FIGURES.md": "It takes 16 seconds."}
        self.assertEqual(list(checking.measured(pages)), ["docs/USING.md: the figure '16 seconds' belongs into docs/FIGURES.md"])

    def test_a_sentence_on_two_pages_is_found(self):
        long = "A pulse has a mask and wanted values, and leaves the cells outside the mask as they are."
        pages = {"a.md": f"Short. {long}", "b.md": f"- **Here**: more. {long} Again.", "CHANGELOG.md": long}
        self.assertEqual(list(checking.said_twice(pages)), [f"b.md and a.md both say: {long}"])
        self.assertEqual(list(checking.said_twice({"a.md": f"{long} {long}"})), [])


class Sizes(unittest.TestCase):
    def test_too_many_words_and_lines_are_found(self):
        right = {"README.md": "a b\n" * checking.MOST_LINES_OF_README, "CHANGELOG.md": "word " * checking.MOST_WORDS}
        self.assertEqual(list(checking.too_long(right)), [])
        self.assertIn("README.md has 111 lines", "".join(checking.too_long({"README.md": "\n" * 111})))
        many = {"README.md": "", "docs/a.md": "word " * checking.MOST_WORDS, "docs/b.md": "word"}
        self.assertEqual(list(checking.too_long(many)), [f"all pages but CHANGELOG.md have {checking.MOST_WORDS + 1} words, above {checking.MOST_WORDS}"])

    def test_what_is_only_tested_heads_no_promise(self):
        texts = {
            "README.md": "## What is promised\n", "docs/USING.md": "**What is promised.** A write ..\n", "c/a.h": "/* a.h\n\n   What is promised. A write\n",
            "python/a.py": '"""Drives.\n\nWhat it promises: all."""\n', "c/b.h": "/* It has what is promised, elsewhere */\n", "sv/a.sv": "// What it keeps (tested)\n",
        }
        self.assertEqual([it.partition(":")[0] for it in checking.promises_too_much(texts)], ["docs/USING.md", "c/a.h", "python/a.py"])


class Quotes(unittest.TestCase):
    CODE = ["fn one() {", "    1", "}", "fn two() {", "    2", "}"]

    def test_parts_stand_in_their_order_whatever_their_blanks(self):
        self.assertTrue(checking.stands_in(["  fn one() {", "..", "    2"], self.CODE))

    def test_another_order_and_another_word_are_refused(self):
        self.assertFalse(checking.stands_in(["2", "..", "fn one() {"], self.CODE))
        self.assertFalse(checking.stands_in(["fn one() {", "2"], self.CODE))

    def test_a_block_is_quoted_behind_its_comment(self):
        text = "<!-- quoted from a/b.rt -->\n```rust\nfn one() {\n```\n\n```rust\nfn other() {\n```\n"
        self.assertEqual(list(checking.quoted(text)), [("a/b.rt", ["fn one() {"])])


class Pictures(unittest.TestCase):
    def test_a_script_that_breaks_off_is_named(self):
        broken = mock.Mock(returncode=1, stdout="", stderr="NameError\n")
        with mock.patch.object(checking.subprocess, "run", return_value=broken):
            self.assertEqual(list(checking.check_pictures()), ["docs/pictures/draw.py: NameError"])


class Names(unittest.TestCase):
    def test_what_stands_in_the_code_is_known(self):
        text = "pcm_top has `pcm_run`, whose `done` is a field of `KeepsPromises`; `--psi` and `crates.txt`, in `crates/pcm_top/src/program.rt`."
        self.assertEqual(checking.unknown_names(text), set())
        self.assertEqual(checking.unknown_options(text), set())
        self.assertEqual(checking.unknown_paths("docs/PROMISES.md", text), set())

    def test_what_stands_nowhere_is_named(self):
        gone = "bank_" + "clock"
        self.assertEqual(checking.unknown_names(f"{gone} has `Clocked{'Bank'}`"), {gone, "Clocked" + "Bank"})
        self.assertEqual(checking.unknown_options("`pcm run --p" + "sy 1`"), {"--p" + "sy"})
        self.assertEqual(checking.unknown_paths("README.md", "`crates/" + gone + "/src/lib.rt`"), {f"crates/{gone}/src/lib.rt"})

    def test_a_name_that_is_a_word_alone_is_no_function(self):
        text = "`pcm_run`, `Registers::next_move`, `KeepsPromises`, and `Registers::every" + "_trace`; ``.\n\n    `no_" + "such`"
        self.assertEqual(list(checking.undeclared(text)), ["every_trace"])

    def test_a_name_is_one_of_the_crate_that_it_is_given_as(self):
        text = "bank_laws `reads_are_served`, clock_laws' `Leads`, bank_timing's `Leads`; `Bank::read` of bank_core, `Leads` of bank_core"
        self.assertEqual(list(checking.astray(text)), ["bank_timing Leads", "bank_core Leads"])

    def test_what_code_definitions_and_scripts_declare_is_known(self):
        code = "pub struct One {\n    pub two: u32,\n}\nenum Three {\n    Four,\n    Five(u32),\n}\npub fn six(a: u32)\n    ensures seven { a }\n"
        self.assertLessEqual({"One", "two", "Three", "Four", "Five", "six", "seven"}, checking.names_by(checking.IN_CODE, code))
        definitions = "abbrev pub one : Nat\none = two\n\npub record Three (n : Nat) : Type 0 where\n  pub four : Five\n"
        self.assertEqual({"one", "Three", "four"}, checking.names_by(checking.IN_DEFINITIONS, definitions) - {"pub"})

    def test_a_definition_stands_in_the_file_that_the_tree_names(self):
        self.assertEqual(list(checking.misplaced("    └ Does    pcm_top/specs/Running.antt    what a job does")), [])
        self.assertEqual(list(checking.misplaced("    └ Does    pcm_top/specs/Calls.antt    what a job does")), ["Does pcm_top/specs/Calls.antt"])


class Requirements(unittest.TestCase):
    def test_clauses_wrong_bodies_and_tests_that_are_there(self):
        row = ("`start_gap Registers::place: apart`", "`start_gap place_one_off_behind_the_gap`", "`four_lines_turn_round_five_places`")
        self.assertEqual(list(checking.faults_of_row(row)), [])
        self.assertEqual(list(checking.faults_of_row((row[0], row[1].replace("start_gap ", ""), row[2]))), [])

    def test_what_is_gone_is_named(self):
        found = list(checking.faults_of_row(("`start_gap Registers::place: nothing`", "`start_gap no_edit`", "`no_test`")))
        self.assertEqual(found, ["clause start_gap Registers::place: nothing", "wrong body start_gap no_edit", "test no_test"])

    def test_who_tries_a_wrong_body_is_told(self):
        rows = [("`start_gap Registers::place: apart`", "`place_one_off_behind_the_gap` `bank_core the-gap-never-moves`", "")]
        said = "Of these `tools/wrong` alone tries those of {}, whose checks are dear."
        self.assertEqual(checking.untold(said.format("bank_core"), rows), [])
        self.assertEqual(checking.untold(said.format("bank_timing and start_gap"), rows), ["bank_core", "bank_timing", "start_gap"])

    def test_a_name_that_stays_stands_in_its_crate(self):
        self.assertEqual(list(checking.lost_names()), [])
        self.assertEqual(list(checking.lost_names("start_gap: Move Registers::place Registers::nothing")), ["docs/names: start_gap has no Registers::nothing"])
        self.assertEqual(list(checking.lost_names("# a comment: none\nno_crate: Move\npcm_cli:")), ["docs/names: there is no crate no_crate"])

    def test_a_case_of_stored_input_is_a_test(self):
        self.assertTrue(checking.is_test("played_tests", "a_header_alone_gives_a_header_alone"))


class Trees(unittest.TestCase):
    TREE = (
        "    RunsRight      right_runs/specs/Runs.antt  the headline\n"
        "    ├ EndsWithTo   right_runs/specs/Ends.antt  a bank\n"
        "    │ └ newest     row_rules/specs/Rows.antt   the newest bytes\n"
        "    └ is_served    row_rules/specs/Serving.antt\n"
    )

    def test_a_branch_is_what_its_stem_unfolds_to(self):
        self.assertEqual(list(checking.strayed(self.TREE)), [])

    def test_a_branch_of_another_stem_is_named(self):
        strayed = self.TREE + "      └ SavesQueue right_images/specs/SavedBanks.antt\n"
        self.assertEqual(list(checking.strayed(strayed)), ["SavesQueue under is_served"])

    def test_imports_are_read_through_their_braces(self):
        self.assertEqual(list(definitions.imported("Rattle.a.specs.{B.{c, d}, e.F}")), [["Rattle", "a", "specs", *it] for it in (["B", "c"], ["B", "d"], ["e", "F"])])

    def test_a_definition_ends_before_the_next_comment(self):
        text = "-- one\nabbrev pub one : Nat\none = two\n\nmodule _ (n : Nat) where\n  -- two\n  pub record Two : Type 0 where\n    pub field : Nat\n"
        self.assertEqual(list(definitions.split(text)), ["one", "Two"])


class Promises(unittest.TestCase):
    def test_a_promise_has_functions_and_clauses(self):
        text = "- start_gap `Registers::place`: `after`, `apart` (`IsApart`): so. `read`, `write`: **`fault`**, `next`: and so."
        found = [(["Registers::place"], ["after", "apart"]), (["read", "write"], ["fault", "next"])]
        self.assertEqual(list(checking.promised(text)), found)

    def test_root_files_are_held_to_their_clauses_too(self):
        told = [("crates/one/src/lib.rt", "Start: `Registers::place`: `apart`, `done`. `Registers::no_" + "place` moves.")]
        with mock.patch.object(checking, "root_texts", lambda: told):
            found = [it for it in checking.check_promises() if it]
        self.assertEqual([it.rpartition(": ")[2] for it in found], ["no clause done", "no function, type or definition has this name"])

    def test_clauses_are_those_of_a_function_a_record_or_a_type(self):
        self.assertTrue(checking.promises("Registers::place", "apart"))
        self.assertTrue(checking.promises("KeepsPromises", "done"))
        self.assertTrue(checking.promises("LoggedArray", "passed"))
        self.assertFalse(checking.promises("Registers::place", "done"))


class Links(unittest.TestCase):
    def test_a_heading_is_linked_by_its_words(self):
        self.assertEqual(checking.slug("A bank, and its `clock` (bank_timing)"), "a-bank-and-its-clock-bank_timing")

    def test_links_lead_to_files_and_headings(self):
        with tempfile.TemporaryDirectory() as room:
            pathlib.Path(room, "one.md").write_text("# One thing\n")
            with mock.patch.object(checking, "TOP", pathlib.Path(room)):
                good = "[a](one.md) [b](one.md#one-thing) [c](https://example.org/x)"
                self.assertEqual(list(checking.broken_links("two.md", good)), [])
                self.assertEqual(list(checking.broken_links("two.md", "[a](three.md) [b](one.md#two)")), ["three.md", "one.md#two"])


class Installed(unittest.TestCase):
    def test_what_is_installed_names_nothing_that_is_not(self):
        self.assertEqual([it for it in trees.check_installed() if it], [])
        text = checking.pages.USING.read_text(encoding="utf-8")
        self.assertEqual([text.count(it) for it in staging.OF_A_CHECKOUT], [1] * len(staging.OF_A_CHECKOUT))
        told = staging.using().decode()
        self.assertIn("`pcm run --option value .. < trace.csv`", told)
        self.assertIn("\n./pcm run < mine.csv\n", told)

    def test_a_dead_link_is_found(self):
        page = b"# One\n\n[a](../c) [b](b.md#two) [c](https://example.org/x)\n\n[d](#one) [e](gone.md) [f](b.md#gone) [g](#gone)\n"
        tree = {"share/pcm/docs/a.md": page, "share/pcm/docs/b.md": b"# Two\n", "share/pcm/c/pcm.h": b""}
        found = [it.split()[4] for it in trees.lost_links(tree)]
        self.assertEqual(found, ["gone.md", "b.md#gone", "#gone"])

    def test_what_stands_in_a_checkout_alone_is_found(self):
        using = b"`./pcm map` of examples/a.csv and `examples/b`, by `tools/build library`.\n\n    ./pcm run\n\n```sh\n./pcm stream\n```\n"
        tree = {"share/pcm/docs/USING.md": using, "share/man/man1/pcm.1": b"\\fBpcm examples/a.csv\\fR, examples/no\\-file", "share/pcm/examples/a.csv": b""}
        found = [it.split()[-1] for it in trees.absent(tree)]
        self.assertEqual(found, ["./pcm", "examples/b", "tools/build", "examples/no-file"])


class Sections(unittest.TestCase):
    def test_a_section_that_code_names_is_one_of_the_page(self):
        pages = {"docs/MODEL.md": "# Model\n\n## A power cut\n\n## A line's end\n", "README.md": "# Pcm\n"}
        text = "/* docs/MODEL.md, 'A power cut'; MODEL.md ('Life'); MODEL.md, 'A line's end', and README.md: \"Pcm\" */"
        self.assertEqual(list(checking.lost_sections("a.c", text, pages)), ["a.c: MODEL.md has no section 'Life'"])


class Merges(unittest.TestCase):
    def test_a_message_that_names_a_folder_is_found(self):
        messages = [("a1", "Merge branch 'main' of /work/one"), ("b2", "Merge branch 'main' of ../two"), ("c3", "Merge ~/three")]
        messages.append(("d4", "Merge the C driver and/or the disk, 1/3"))
        found = list(checking.folders_of(messages))
        self.assertEqual([it.split(":")[0].split()[-1] for it in found], ["/work/one", "../two", "~/three"])

    def test_without_a_history_there_is_nothing_to_look_at(self):
        with tempfile.TemporaryDirectory() as room, mock.patch.object(checking, "TOP", pathlib.Path(room)):
            self.assertEqual(checking.merges(), [])


class Versions(unittest.TestCase):
    def test_all_files_have_the_version(self):
        self.assertEqual(len(checking.versions()), 4)
        self.assertNotIn(None, checking.versions().values())

    def test_one_that_differs_is_named(self):
        with mock.patch.object(checking, "versions", lambda: {"VERSION": "1.1.0", "CHANGELOG.md": "1.0.0"}):
            self.assertEqual(len([it for it in checking.check_versions() if it]), 1)


class Crates(unittest.TestCase):
    def test_each_crate_stands_in_its_layer(self):
        rows = checking.list_of_crates().splitlines()
        self.assertEqual(len(rows), len({it.layer for it in checking.crates.listed().values()}))
        for crate in checking.crates.listed().values():
            self.assertEqual([row.partition(" ")[0] for row in rows if f"[{crate.name}]({crate.name})" in row], [crate.layer.partition(" ")[0]])

    def test_the_first_sentence_of_a_root_file_says_what_a_crate_is(self):
        self.assertEqual(checking.crates.named("pcm_image").about().partition(":")[0], "The image of a module")

    def test_an_edge_upwards_is_named(self):
        self.assertEqual([it for it in checking.check_layers() if it], [])
        low, high = (checking.crates.Crate(name, layer, (library,)) for name, layer, library in (("low", "1. a", "high"), ("high", "2. b", "low")))
        with mock.patch.object(checking.crates, "listed", lambda: {"low": low, "high": high}):
            self.assertEqual(len([it for it in checking.check_layers() if it]), 1)

    def test_a_wrong_body_that_does_not_fit_is_named(self):
        self.assertEqual([it for it in checking.check_edits() if it], [])
        with tempfile.TemporaryDirectory() as room:
            crate = pathlib.Path(room)
            for name in ("src", "must-fail", "wrong"):
                (crate / name).mkdir()
            (crate / "src" / "lib.rt").write_text("a = 1;\nb = 1;\n")
            for name, file, old in (("one", "src/lib.rt", "a = 1"), ("two", "src/lib.rt", "= 1"), ("none", "src/lib.rt", "c"), ("gone", "src/it.rt", "a")):
                (crate / "must-fail" / f"{name}.edit").write_text(f"file: {file}\nold: {old}\nnew: x\n")
            (crate / "wrong" / "late.edit").write_text("file: src/lib.rt\nold: a\nnew: b\nold: a\nnew: c\n")
            self.assertEqual(list(checking.misfits(crate)), ["must-fail/gone.edit", "must-fail/none.edit", "must-fail/two.edit", "wrong/late.edit"])
            self.assertFalse(checking.is_single(crate))
            for it in sorted((crate / "must-fail").iterdir())[1:]:
                it.unlink()
            self.assertTrue(checking.is_single(crate))

    def test_a_stale_list_is_named(self):
        with tempfile.TemporaryDirectory() as room:
            pathlib.Path(room, "crates").mkdir()
            pathlib.Path(room, "crates", "README.md").write_text("<!-- crates -->\nold\n<!-- /crates -->\n")
            with mock.patch.object(checking, "TOP", pathlib.Path(room)):
                self.assertEqual(len([it for it in checking.check_crates(False) if it]), 1)
                self.assertEqual([it for it in checking.check_crates(True) if it], [])
                self.assertEqual([it for it in checking.check_crates(False) if it], [])


if __name__ == "__main__":
    unittest.main()
