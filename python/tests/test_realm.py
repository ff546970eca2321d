"""What the package gives. The library is that of REALM_SO, else the one that bin/build-c has built.

    PYTHONPATH=python python3 -m unittest discover python/tests
"""

import array
import contextlib
import gc
import os
import pathlib
import random
import signal
import subprocess
import sys
import tempfile
import threading
import time
import unittest
from unittest import mock

import realm

EXAMPLES = pathlib.Path(__file__).resolve().parents[2] / "examples"
FILL = "realm 1\nspace s 0..3\ninst a s x\nf = fill a.x s 7\nend\n"
FILL_REPORT = "realm-report 1\nop f done triggered\ncells a.x 0..3 7 7 7 7\ndone\n"
RACE = "realm 1\nspace s 0..3\ninst a s x\nf = fill a.x s 7\ng = fill a.x s 8\nend\n"
WAITS = "realm 1\nspace s 0..3\ninst a s x\nu = user\nf = fill a.x s 7 on u\nt = trigger u\nend\n"


def shown(name):
    """What a worked example shows of its last command."""
    return (EXAMPLES / f"{name}.out").read_text().rpartition("$ ")[2].partition("\n")[2]


class Texts(unittest.TestCase):
    def test_str_and_bytes(self):
        self.assertEqual(realm.evaluate(FILL), FILL_REPORT)
        self.assertEqual(realm.evaluate(FILL.encode()), FILL_REPORT.encode())
        self.assertEqual(realm.check(FILL), realm.check(FILL.encode()))
        self.assertEqual(realm.upgrade("realm 1\nend\n"), "realm 2\nend\n")
        self.assertEqual(realm.upgrade("realm 1\nend\n", to=3), "realm 3\nend\n")
        self.assertEqual(realm.plan("realm 1\nend\n", 1), "timeline 1\ncritical 0\nlength 0\ndone\n")

    def test_an_unread_text(self):
        with self.assertRaises(realm.Refused) as caught:
            realm.check("realm 1\nspace s 0..3\nnonsense\nend\n")
        self.assertEqual((caught.exception.status, caught.exception.line), (3, 3))
        self.assertTrue(caught.exception.reason.startswith("line 3 "))
        self.assertIn("line 3", caught.exception.explanation)

    def test_a_race(self):
        for call in (realm.check, realm.evaluate, realm.Run, realm.run):
            with self.assertRaises(realm.Refused) as caught:
                call(RACE)
            self.assertEqual(str(caught.exception), "race at operations 0 and 1")
            self.assertEqual((caught.exception.status, caught.exception.line, caught.exception.operations), (4, 4, (0, 1)))
            self.assertIn("race", caught.exception.explanation)

    def test_explanations(self):
        for name in ("race", "unknown"):
            text = (EXAMPLES / f"refused/{name}.realm").read_text()
            said = shown(f"explain/{name}").rpartition("status ")[0]
            with self.assertRaises(realm.Refused) as caught:
                realm.run(text)
            self.assertEqual((realm.explain(text), caught.exception.explanation), (said, said))
        self.assertEqual(realm.explain((EXAMPLES / "explain/waiting.realm").read_text()), shown("explain/waiting"))

    def test_numbers_beyond_their_range(self):
        for call in (lambda: realm.plan(FILL, 9), lambda: realm.make(1, 0), lambda: realm.Run(FILL, 9000), lambda: realm.Owner(0)):
            with self.assertRaises(realm.Refused) as caught:
                call()
            self.assertEqual((caught.exception.status, caught.exception.explanation), (2, ""))

    def test_no_text(self):
        with self.assertRaises(TypeError):
            realm.check(None)

    def test_the_version(self):
        self.assertIn(f'version = "{realm.__version__}"\n', (EXAMPLES.parent / "python/pyproject.toml").read_text())


class Runs(unittest.TestCase):
    def test_by_threads(self):
        text = (EXAMPLES / "deferred.realm").read_text()
        for threads in (0, 1, 2, 8):
            self.assertEqual(realm.run(text, threads=threads), shown("deferred"))

    def test_lines_on_several_events(self):
        for name in ("release", "shared3"):
            text = (EXAMPLES / f"{name}.realm").read_text()
            self.assertEqual((realm.evaluate(text), realm.run(text, threads=4)), (shown(name), shown(name)))

    def test_bodies_of_calls(self):
        text = (EXAMPLES / "calls.realm").read_text()
        told = []
        words = ("potrf", "trsm", "gemm", "norm")
        for threads in (1, 4):
            told.clear()
            with realm.Run(text) as run:
                run.perform_all(threads, {word: told.append for word in words})
                self.assertEqual(run.report(), realm.evaluate(text))
            order = [it.word for it in told]
            self.assertEqual((sorted(order), order[0]), (sorted(words), "potrf"))
            self.assertLess(order.index("trsm"), order.index("gemm"))
            trsm = told[order.index("trsm")]
            self.assertEqual((trsm.operation, trsm.values, trsm.accesses), (1, (128,), (realm.Access("read", 0, 0), realm.Access("write", 0, 1))))

    def test_a_body_that_is_missing_and_one_that_raises(self):
        text = (EXAMPLES / "calls.realm").read_text()
        told = []
        with realm.Run(text) as run:
            with self.assertRaises(realm.Misuse):
                run.perform_all(2, {"potrf": told.append})
            self.assertEqual((run.state().unissued, told), (4, []))
        with realm.Run(text) as run:
            with self.assertRaises(ZeroDivisionError):
                run.perform_all(2, {"potrf": told.append, "trsm": lambda call: 1 // 0, "gemm": told.append, "norm": told.append})
            ends = [line.split()[2] for line in run.report().splitlines() if line.startswith("op ")]
        self.assertEqual((ends, sorted(it.word for it in told)), (["done", "faulted", "cancelled", "done"], ["norm", "potrf"]))

    def test_bodies_that_fault_by_hand(self):
        with realm.Run("realm 3\nf = call f\ng = call g on f\nend\n") as run:
            while run.issue() is not None:
                pass
            work = run.take(0)
            self.assertEqual(work.call().word, "f")
            work.perform(faulted=True)
            work.put_back()
            self.misuse(26, run.report)
            work = run.take(1)
            self.assertIsNone(work.call())
            self.misuse(11, work.perform, True)
            work.perform()
            work.put_back()
            self.assertEqual(run.report(), "realm-report 1\nop f faulted poisoned\nop g cancelled poisoned\ndone\n")

    def test_an_interrupt_while_bodies_run(self):
        # (three seconds of work and more: on a busy machine the main thread may get no turn for some hundreds of milliseconds)
        count = 5000
        text = "realm 3\n" + "".join(f"k{k} = call busy\n" for k in range(count)) + "end\n"
        for threads in (1, 3):
            told = []

            def busy(call, told=told):
                end = time.monotonic() + 0.002
                while time.monotonic() < end:
                    pass
                told.append(call)

            def interrupt(told=told):
                while len(told) < 5:
                    time.sleep(0.001)
                os.kill(os.getpid(), signal.SIGINT)

            threading.Thread(target=interrupt).start()
            with realm.Run(text) as run, self.assertRaises(KeyboardInterrupt):
                run.perform_all(threads, {"busy": busy})
            self.assertLess(len(told), count)

    def test_generated_graphs(self):
        for seed in range(20):
            text = realm.make(seed, 50)
            self.assertEqual(realm.run(text), realm.evaluate(text))

    def test_by_hand(self):
        with realm.Run(WAITS) as run:
            self.assertEqual([run.issue() for _ in range(4)], [0, 1, 2, None])
            self.assertIsNone(run.take(1))
            work = run.take(2)
            self.assertEqual(run.state(), realm.State(unissued=0, issued=2, out=1, ended=0, left=3))
            with self.assertRaises(realm.Misuse):
                run.report()
            work.perform()
            work.put_back()
            self.assertEqual(run.report(), realm.evaluate(WAITS))
            self.assertEqual(run.report(), realm.evaluate(WAITS))

    def misuse(self, status, call, *arguments):
        with self.assertRaises(realm.Misuse) as caught:
            call(*arguments)
        self.assertEqual(caught.exception.status, status)
        self.assertNotIn(str(caught.exception), ("", "no answer has this number"))

    def test_misuse(self):
        run, other = realm.Run(FILL), realm.Run(FILL)
        run.issue()
        work = run.take(0)
        self.misuse(15, run.take, 1)
        self.misuse(16, work.put_back)
        self.misuse(17, run.perform_all)
        work.perform()
        self.misuse(20, work.perform)
        mine, work._run = work._run, other
        self.misuse(14, work.put_back)
        work._run = mine
        work.put_back()
        self.misuse(12, work.put_back)
        self.assertEqual(run.report(), FILL_REPORT)
        self.misuse(19, run.issue)
        run.free()
        self.misuse(12, run.report)

    def test_what_nobody_holds_is_freed(self):
        for _ in range(100):
            run = realm.Run(FILL)
            run.issue()
            run.take(0)
        gc.collect()
        self.assertEqual(realm.run(FILL), FILL_REPORT)


class Events(unittest.TestCase):
    def test_an_end(self):
        owner = realm.Owner(slots=2, waiters=1, last_gen=9)
        pending, waiter = owner.create(), owner.waiter()
        event = pending.event
        self.assertIsNone(owner.waiter())
        self.assertIsNone(owner.look(event))
        self.assertIsNone(owner.watch(event, waiter))
        ended = pending.end(well=False)
        receipt = ended.receipt()
        self.assertEqual([it.number for it in ended.waiters()], [0])
        self.assertEqual(owner.learn(receipt), (event, False))
        self.assertIs(owner.look(event), False)
        owner.join(ended.place())
        closed = owner.close()
        self.assertIs(closed.look(event), False)
        self.assertIsNone(closed.place_of(0))

    def test_what_is_left(self):
        owner = realm.Owner(slots=1)
        pending = owner.create()
        self.assertIsNone(owner.create())
        self.assertIsNone(owner.close())
        owner.join(pending.leave())
        closed = owner.close()
        self.assertIsNone(closed.look(pending.event))

    def test_misuse(self):
        owner, other = realm.Owner(slots=1), realm.Owner(slots=1)
        pending = owner.create()
        for status, call in (
            (14, lambda: other.look(pending.event)),
            (15, lambda: owner.look(realm.Event(0, 1, pending.event.table))),
            (14, lambda: other.join(owner.split())),
            (11, lambda: owner.join(other)),
        ):
            with self.assertRaises(realm.Misuse) as caught:
                call()
            self.assertEqual(caught.exception.status, status)

    def test_threads(self):
        owner = realm.Owner(slots=4, last_gen=200)
        for _ in range(100):
            pending, place, seen = owner.create(), owner.split(), []

            def look(place=place, event=pending.event, seen=seen):
                while (found := place.look(event)) is None:
                    pass
                seen.append(found)

            thread = threading.Thread(target=look)
            thread.start()
            pending.end()
            thread.join()
            self.assertEqual(seen, [True])


def mix(number, reads, writes):
    """What a task of these tests does to bytes: all that it accesses it mixes into what it writes."""
    for it in [*reads, *writes]:
        for byte in it:
            number = number * 31 + byte & 0xFFFFFFFF
    for it in writes:
        for k in range(len(it)):
            it[k] = (it[k] + number + k) & 255


class Tasks(unittest.TestCase):
    def misuse(self, status, call, *arguments, **more):
        with self.assertRaises(realm.Misuse) as caught:
            call(*arguments, **more)
        self.assertEqual(caught.exception.status, status)
        self.assertNotIn(str(caught.exception), ("", "no answer has this number"))

    def test_as_one_after_another(self):
        draw = random.Random(1)
        for workers in (0, 1, 3, 8):
            arrays, wanted = ([bytearray(range(12)) for _ in range(6)] for _ in range(2))
            with realm.Tasks(workers) as tasks:
                tasks.window(draw.choice((7, 1024)))
                data = [tasks.data(it) for it in arrays]
                for it in data[3:]:
                    it.cut([3, 4, 5])
                for number in range(300):
                    of = [(k, draw.randrange(4) if k > 2 else 3) for k in draw.sample(range(6), 3)]
                    uses, count = [data[k] if tile == 3 else data[k][tile] for k, tile in of], draw.randint(0, 3)
                    spaces = [it.memory for it in uses]
                    parts = [memoryview(wanted[k])[(slice(3), slice(3, 7), slice(7, 12), slice(12))[tile]] for k, tile in of]
                    self.assertEqual(tasks.insert(mix, number, spaces[:count], spaces[count:], reads=uses[:count], writes=uses[count:]), number)
                    mix(number, parts[:count], parts[count:])
                tasks.wait()
                self.assertEqual(arrays, wanted)
                stats = tasks.stats()
                self.assertEqual((stats.inserted, stats.done, stats.workers, stats.data), (300, 300, workers, 6))

    def test_a_body_that_raises(self):
        cells, other = array.array("d", [0, 0]), array.array("d", [0])
        with realm.Tasks(2) as tasks:
            of_cells, of_other = tasks.data(cells), tasks.data(other)
            of_cells.cut([8, 8])
            first, second = of_cells
            tasks.insert(lambda: 1 // 0, writes=[first])
            tasks.insert(cells.__setitem__, 0, 5, writes=[of_cells])
            tasks.insert(cells.index, 7, reads=[second])
            tasks.insert(other.__setitem__, 0, 6, writes=[of_other])
            with self.assertRaises(ZeroDivisionError):
                tasks.wait()
            self.assertEqual([tasks.status(it) for it in range(4)], ["faulted", "cancelled", "cancelled", "done"])
            self.assertEqual((list(cells), list(other)), ([0, 0], [6]))
            tasks.insert(cells.__setitem__, 0, 5, writes=[of_cells])
            tasks.wait()
            self.assertEqual(cells[0], 5)
            tasks.insert(sys.exit, 3)
            tasks.insert(lambda: 1 // 0)
            with self.assertRaises(SystemExit):
                tasks.wait()
            # (an interrupt comes to the main thread, which waits and runs no body)
            for most in (1, 2):
                ran = []
                tasks.window(most)
                guarded = threading.Event()
                tasks.insert(
                    lambda guarded=guarded: (guarded.wait(), time.sleep(0.2), os.kill(os.getpid(), signal.SIGINT), time.sleep(0.2)), writes=[of_cells]
                )
                with self.assertRaises(KeyboardInterrupt):
                    guarded.set()
                    tasks.insert(lambda: time.sleep(0.1), writes=[of_cells])
                    tasks.insert(ran.append, 1, writes=[of_cells])
                    tasks.wait()
                with contextlib.suppress(KeyboardInterrupt):
                    tasks.wait()
                self.assertEqual(ran, [])
        runtime = realm.Tasks(1)
        runtime.insert(lambda: 1 // 0)
        with self.assertRaises(ZeroDivisionError):
            runtime.free()
        self.misuse(12, runtime.wait)

    def test_data(self):
        cells, answers = bytearray(16), []
        with realm.Tasks(1) as tasks, realm.Tasks(0) as others:
            data, foreign = tasks.data(cells), others.data(cells)
            self.misuse(28, tasks.data, memoryview(cells)[8:])
            self.misuse(15, data.cut, [8, 9])
            self.misuse(15, tasks.data, bytearray())
            self.assertRaises(TypeError, tasks.data, b"of bytes that may not be written")
            self.assertRaises(BufferError, cells.extend, b"1")
            data.cut([8, 8])
            self.assertEqual((len(data), data[-1].number, len(data[0].memory)), (2, 1, 8))
            self.assertRaises(IndexError, lambda: data[2])
            self.misuse(29, tasks.insert, print, reads=[data], writes=[data[0]])
            self.misuse(15, tasks.insert, print, reads=[data[0]] * 9)
            self.misuse(14, tasks.insert, print, reads=[foreign])
            self.assertRaises(TypeError, tasks.insert, print, reads=[cells])
            tasks.insert(lambda: answers.append(self.misuse(27, tasks.wait)), reads=[data])
            self.misuse(30, data.cut, [16])
            tasks.wait()
            self.assertEqual(answers, [None])
            self.assertTrue(tasks.graph().startswith("realm 3\n"))
            data.free()
            foreign.free()
            self.misuse(12, tasks.insert, print, reads=[data])
            cells.extend(b"1")
            self.misuse(15, tasks.status, 99)

    def test_the_guard(self):
        cells, told = bytearray(8), os.dup(2)
        with mock.patch.dict(os.environ, REALM_GUARD="1"), tempfile.TemporaryFile() as file:
            with realm.Tasks(4) as tasks:
                data = tasks.data(cells)
                tasks.insert(cells.__setitem__, 3, 1, reads=[data])
                os.dup2(file.fileno(), 2)
                with self.assertRaises(realm.Undeclared) as caught:
                    tasks.wait()
                os.dup2(told, 2)
                self.assertTrue(tasks.stats().is_guarded)
            os.close(told)
            file.seek(0)
            self.assertIn(b"realm guard: task 0 changed byte 3 of datum 0", file.read())
        found = caught.exception
        self.assertEqual((found.task, found.datum, found.byte, found.is_read, found.is_written), (0, 0, 3, True, True))

    def test_what_nobody_holds_and_what_is_left_at_the_end(self):
        ran = []
        for _ in range(20):
            tasks = realm.Tasks(2)
            data = tasks.data(bytearray(8))
            tasks.insert(ran.append, 1, writes=[data])
        del tasks, data
        gc.collect()
        self.assertEqual(len(ran), 20)
        environment = {**os.environ, "PYTHONPATH": os.pathsep.join(sys.path)}
        for program, said in {
            "import realm, time\ntasks = realm.Tasks(3)\nfor _ in range(9): tasks.insert(lambda: (time.sleep(0.01), print(1, end='', flush=True)))\n": b"1" * 9,
            "import os, realm\ntasks = realm.Tasks(3)\nif not os.fork(): raise SystemExit\nos.wait()\nprint(1, end='')\n": b"1",
        }.items():
            ended = subprocess.run([sys.executable, "-W", "ignore", "-c", program], capture_output=True, timeout=60, env=environment)
            self.assertEqual((ended.returncode, ended.stdout, ended.stderr), (0, said, b""))


if __name__ == "__main__":
    unittest.main()
