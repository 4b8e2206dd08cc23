"""Tests of tools/edits, clauses, links, rests-on, costs, functions and build: no toolchain."""

import importlib.machinery
import importlib.util
import math
import random
import re
import sys
import tempfile
import time
from unittest import mock

import support
from support import ROOT

import buildplan


def tool(name):
    loader = importlib.machinery.SourceFileLoader(f"tool_{name}", str(ROOT / "tools" / name))
    module = importlib.util.module_from_spec(importlib.util.spec_from_loader(loader.name, loader))
    sys.modules[loader.name] = module
    loader.exec_module(module)
    return module


# What the checker says of a crate with an edit, and what the edit then shows.
REFUSED_BY_AN_ANSWER = (
    "./proofs/word/cut_at/Answers.antt:27:5: error: `returns`: the goal fails\n"
    "  `length text` = `2`\nlogic=not-proved\n"
)
OPEN_GOAL = (
    "note: src/word.rt:6:1: it is not proved that what the function ensures holds (`returns`)\n"
    "help: write ./proofs/word/next_word/Answers.antt with these lines\n\nlogic=not-proved\n"
)
LOST_NAME = (
    "./proofs/run/run_text/Answers.antt:14:5: error: `c.in_ok-write_deliveries`\n"
    "  has no field `ensures`\n"
    "./proofs/run/Lib.antt:1:1: error: `Answers` was not admitted\n\nlogic=not-proved\n"
)
COMPILER = "src/word.rt:6:1: error[unknown-name]: no such name\n"
ADVICE = "./proofs/Word.antt:11:5: note: large solution\n"


SOURCE = """// ensures order { .. } of nobody
pub fn run(
    steps: u8,
) -> u8
    ensures each { result ≡ 1 }
    ensures order { result ≡ 1 }
{
    1
}

impl Poster {
    pub fn post(&self) -> u8
        ensures post { result ≡ 2 }
        ensures order { result ≡ 2 }
    {
        2
    }
}
"""
TERMS = """-- record Order
pub record Order (h : History) : Type 0 where
  pub first : h ≡ h

abbrev pub taken : History → ℕ
taken h = 0
"""


class Links(support.TestCase):
    """tools/links finds what a link names, also where its source has grown above it."""

    def page(self, *links):
        text = "".join(f"- ([{text}](../crates/{to}#L{at}))\n" for text, to, at in links)
        return self.write("docs/PAGE.md", text)

    def test_shifted_lines(self):
        """A line put above a clause makes its link wrong; it is told, and then right again."""
        links = [
            ("`run`, `order`", "a.rt", 6), ("`each`", "a.rt", 5), ("`run`", "a.rt", 2),
            ("`Poster::post`", "a.rt", 12), ("`Poster::post`, `post`", "a.rt", 13),
            ("`post`, `order`", "a.rt", 14), ("Order", "b.antt", 2),
            ("`Order`, `first`", "b.antt", 3), ("`taken`", "b.antt", 5),
        ]
        followed = tool("links").followed
        for shift in (0, 3):
            self.write("crates/a.rt", "// more\n" * shift + SOURCE)
            self.write("crates/b.antt", "-- more\n" * shift + TERMS)
            moved = [(text, to, at + shift) for text, to, at in links]
            wanted = self.page(*moved).read_text("utf-8")
            self.assertEqual(followed(self.page(*moved)), (wanted, [], []))
            text, wrong, astray = followed(self.page(*links))
            self.assertEqual((text, len(wrong), astray), (wanted, len(links) if shift else 0, []))
        self.assertIn("PAGE.md: `each` in ../crates/a.rt: line 5 is 8 now", wrong)
        self.says(len(links), "links", 9)

    def test_links_that_lead_nowhere(self):
        self.write("crates/a.rt", SOURCE)
        page = self.page(("`order`", "a.rt", 6), ("`gone`", "a.rt", 5), ("`run`", "c.rt", 2))
        text, wrong, astray = tool("links").followed(page)
        self.assertEqual((text, wrong), (page.read_text("utf-8"), []))
        told = [it.rpartition(": ")[2] for it in astray]
        self.assertEqual(told, ["it stands at 2 lines [6, 14]", *["it stands at 0 lines []"] * 2])
        self.says(len(astray), "links", 3)


class RestsOn(support.TestCase):
    """tools/rests-on counts what a definition cites, through lists of names and modules."""

    FILES = {
        "Words": "pub use Rattle.one.specs.Low.{far}\n",
        "Low": "-- Far is low.\nabbrev pub far : \u2115\nfar = 1\n\nabbrev pub unread : \u2115\n",
        "Side": "-- About deep and unread.\nabbrev pub deep : \u2115\ndeep = deep_in 3\n",
        "High": "use Rattle.one.specs.Words.{far, unread}\nuse Rattle.one.specs.Side as side\n\n"
                "pub record High : Type 0 where\n  pub one : far \u2261 side.deep\n"
                "  -- Here unread is named alone.\n",
    }

    def test_lines(self):
        for name, text in self.FILES.items():
            self.write(f"crates/one/specs/{name}.antt", text)
        module = tool("rests-on")
        module.CRATES = self.folder / "crates"
        reader = module.Reader()
        high = module.CRATES / "one" / "specs" / "High.antt"
        reader.add(high, "High")
        found = [(count, whole, path.stem) for count, whole, path in reader.rows(high)]
        self.assertEqual(found, [(3, 5, "Low"), (3, 3, "Side"), (3, 6, "High")])
        self.says(len(found), "files", 3)


class Edits(support.TestCase):
    def test_judged(self):
        judged = tool("edits").judged
        rows = [
            (1, REFUSED_BY_AN_ANSWER, True, "refused, 1 goal: proofs/word/cut_at/Answers.antt ret"),
            (1, OPEN_GOAL, True, "refused, 1 goal: src/word.rt returns"),
            (1, ADVICE + LOST_NAME.replace("\n\n", "\n") + OPEN_GOAL, True, "refused, 1 goal"),
            (1, REFUSED_BY_AN_ANSWER + OPEN_GOAL, True, "refused, 2 goals"),
            (1, ADVICE + LOST_NAME, False, "SHOWS NOTHING"),
            (1, COMPILER, False, "NOT REACHED by the prover: no such name"),
            (0, ADVICE + "logic=proved\n", False, "NOT REFUSED"),
            (3, "killed\n", False, "NOT REACHED by the prover, by status 3"),
        ]
        for status, output, shows, said in rows:
            found = judged(status, output)
            self.assertEqual(found[0], shows, found)
            self.assertTrue(found[1].startswith(said), found)
        self.says(len(rows), "outputs", 8)

    def test_groups(self):
        """Edits of different functions are tried together, and each is judged by its own."""
        edits = tool("edits")
        edits.ROOT = self.folder
        self.write("crates/one/src/word.rt", SOURCE)
        rows = [("run", "    1\n}\n\nimpl", "    3\n}\n\nimpl"), ("post", "       2", "       4"),
                ("again", "        2\n", "        5\n"), ("type", "impl Poster", "impl Other")]
        made = []
        for name, old, new in rows:
            made.append(edits.Edit(self.folder / name, "one"))
            self.assertIsNone(edits.add_change(made[-1], "src/word.rt", old, new))
        self.assertEqual([it.function for it in made], [
            ("src/word.rt", "run"), ("src/word.rt", "post"), ("src/word.rt", "post"), None])
        groups = edits.groups_of(made)
        names = [[it.path.name for it in group] for group in groups]
        self.assertEqual(names, [["run", "post"], ["again"], ["type"]])
        texts = edits.texts_of(groups[0])
        # The proof of a type's function may stand below the file of the type.
        answer = REFUSED_BY_AN_ANSWER.replace("proofs/word/cut_at", "proofs/poster/Poster/post")
        output = OPEN_GOAL + answer
        told = [edits.shown_by(it, texts, 1, output) for it in groups[0]]
        self.assertEqual([it[0] for it in told], [True, True], told)
        told = [edits.shown_by(it, texts, 1, OPEN_GOAL) for it in groups[0]]
        self.assertEqual([it[0] for it in told], [True, False], told)
        self.assertFalse(edits.shown_by(made[0], texts, 1, COMPILER)[0])
        self.says(len(made), "edits in groups", 4)


class Sources(support.TestCase):
    """tools/edits applies the must-fail edits, and tools/clauses looks that each public clause has
    one, or a reason to have none. Neither proves anything here."""

    def passed(self, name, word):
        """How many passed, which are all."""
        output = self.ran([ROOT / "tools" / name, word], seconds=self.time_limit).decode()
        told = re.fullmatch(r"(\d+) passed, 0 failed", output.splitlines()[-1])
        self.assertTrue(told, output)
        return int(told[1])

    def test_edits(self):
        self.says(self.passed("edits", "--apply"), "edits", 100)

    def test_clauses(self):
        self.says(self.passed("clauses", "--check"), "clauses", 450)


class Costs(support.TestCase):
    def texts(self, command, status):
        """What is printed, and what is written down."""
        report = self.folder / "report"
        words = [ROOT / "tools" / "costs", report, "bash", "-c", command]
        return self.ran(words, status=status), report.read_bytes()

    def test_costs(self):
        for text in self.texts("exit 3", 3):
            self.assertRegex(text, rb"^CI: 0 processor minutes in 0 min; ")
        self.says(1, "run")

    def test_shares(self):
        """What a prover that the command started has cost stands under its crate."""
        prover = "exec -a rattle python3 -c 'import time; time.sleep(2)' --crate-name lines"
        for text in self.texts(f"({prover}); exit 0", 0):
            self.assertIn(b"\n  lines: 0.0 (proof 0.0, tests 0.0, edits 0.0)\n", text)
        self.says(1, "run")


class Functions(support.TestCase):
    def test_times(self):
        """A function takes what its modules take, each behind the one that was kept before it."""
        kept = [(4, "Rattle-a-specs.One.oantt"), (6, "Rattle-a-proofs.b.C.d.Lts.oantt"),
                (9, "Rattle-a-proofs.b.C.d.Proof.oantt"), (10, "Rattle-a-proofs.Lemmas.oantt"),
                (14, "Rattle-a-proofs.e.Proof.oantt"), (19, "Rattle-a-proofs.b.C.oantt")]
        found = tool("functions").times_of(reversed(kept))
        self.assertEqual(found, {"b::C::d": 5, "e": 4, "": 6})
        self.assertEqual(tool("functions").times_of([]), {})
        self.says(2, "runs")


class Build(support.TestCase):
    def test_order(self):
        build = tool("build")
        crates = build.libraries()
        order = build.order(crates)
        self.assertEqual(order[-1], "messagehub")
        for name, below in crates.items():
            for other in below:
                self.assertLess(order.index(other), order.index(name))
        self.assertFalse([name for name in crates if name.endswith("_tests")])
        self.says(len(order), "crates", 15)

    def play(self, load, noise, seed=0, **machine):
        """Plays a build in which crates take other times than the plan says: what is left as it was
        told, with the truth; when each crate ended, and with how many jobs it ran."""
        draw, build = random.Random(seed), tool("build")
        crates = build.libraries()
        plan = buildplan.Plan(crates, **{"processors": 4, "lanes": 4, "memory": 23e6, **machine})
        work = {name: plan.weight(name) * draw.lognormvariate(0, noise) for name in crates}
        told, ended, jobs = [(0, plan.told_left())], {}, {}
        while len(ended) < len(crates):
            jobs.update((it.name, it.jobs) for it in plan.begin())
            speeds = plan.speeds()
            name = min(plan.at_work, key=lambda it: work[it] / speeds[it])
            # No line is as long in coming.
            passed = min(60, work[name] / speeds[name])
            work = {it: left - passed * speeds.get(it, 0) for it, left in work.items()}
            plan.play(passed * load(plan.now))
            if passed < 60:
                plan.end(name)
                ended[name] = plan.now
            told.append((plan.now, plan.told_left()))
        return told, ended, jobs

    def test_left(self):
        """What is told to be left never rises by more than a tenth, whatever the machine does."""
        loads = {
            "even": lambda now: 1, "slow": lambda now: 3, "fast": lambda now: 0.5,
            "loaded later": lambda now: 3 if now > 300 else 1,
            "loaded first": lambda now: 4 if now < 900 else 1,
        }
        count = 0
        for load in loads:
            for seed in range(10):
                told, ended, _ = self.play(loads[load], 0.4, seed)
                least, end = math.inf, max(ended.values())
                for now, words in told[:-1]:
                    minutes = int((re.search(r"(\d+) min", words) or [0, 0])[1])
                    self.assertLessEqual(minutes, 1.1 * least, (load, seed, told))
                    least = min(least, minutes)
                    count += 1
                    if load == "even" and "about" in words:
                        self.assertLess(abs(60 * minutes - (end - now)), 90 + 0.6 * (end - now))
                self.assertEqual(told[-1][1], "")
        self.says(count, "lines", 1_000)

    def test_heavy_crate_beside_the_chain(self):
        """The chain doesn't wait for hub_steps, which gets the processors that are idle."""
        told, ended, jobs = self.play(lambda now: 1, 0)
        self.assertEqual(jobs["hub_steps"], 4)
        self.assertLess(ended["hub_steps"], ended["hub_run"])
        self.assertLess(ended["messagehub"], 1_050)
        self.says(len(jobs), "crates", 15)

    def test_memory(self):
        """Beside an urgent crate with four jobs, where memory stays free for another one."""
        for memory, jobs in [(23e6, 4), (18e6, 2), (12e6, 1)]:
            plan = buildplan.Plan(tool("build").libraries(), 4, 4, memory)
            plan.at_work["hub_core"] = buildplan.Job("hub_core", 4, True, 0, 300)
            self.assertEqual(plan.jobs_for("hub_steps", is_urgent=False), jobs)
        self.says(3, "machines")

    def test_proved_before(self):
        """Crates that were proved before say nothing of how fast the others are."""
        crates = tool("build").libraries()
        plan = buildplan.Plan(crates, 4, 4)
        order = tool("build").order(crates)
        for name in order[:-1]:
            plan.at_work[name] = buildplan.Job(name, 1, True, plan.now, plan.weight(name))
            plan.play(1)
            plan.end(name, is_new=False)
        self.assertEqual(plan.told_left(), ", about 1 min left")
        self.says(len(order), "crates", 15)

    def test_silent(self):
        """A crate that nothing was told of for long is told of, with what rt says until then."""
        build, said = tool("build"), []
        with mock.patch.object(tempfile, "tempdir", str(self.folder)):
            work = build.Build(build.libraries(), 4)
        build.say = said.append
        for name, text in [("hub_core", ""), ("hub_bell", "fn a: proved\nfn b: proved\n")]:
            self.write(work.logs / f"{name}.log", text)
            work.at_work[name] = name, work.own, work.first
            work.told[name] = work.first
        work.tell_silent()
        self.assertEqual(said, [])
        work.told = {name: time.monotonic() - 151 for name in work.told}
        work.tell_silent()
        work.tell_silent()
        head = ("messagehub: hub_bell: 2 functions proved; hub_core: at work; rt tells how many "
                "functions are proved only at the end, about ")
        self.assertEqual(len(said), 1)
        self.assertTrue(said[0].startswith(head), said)
        self.says(1, "line")
