"""Tests of the judge of recorded histories."""
import contextlib
import io
import random
import tempfile
import unittest
from pathlib import Path

import linearizable

# rows of calls, of one key each, with the call at whose end no order is left, counted from 0, or None
ROWS = [
    # one after another
    (["0 1 put 5 new", "2 3 get - 5", "4 5 add 2 7", "6 7 del - deleted", "8 9 get - absent", "10 11 add 4 4"], None),
    # a read that lies beside a put may be before it or behind it
    (["0 1 put 5 new", "2 9 put 6 replaced", "3 4 get - 5"], None),
    (["0 1 put 5 new", "2 9 put 6 replaced", "3 4 get - 6"], None),
    # and where two reads follow each other, not back
    (["0 1 put 5 new", "2 9 put 6 replaced", "3 4 get - 6", "5 6 get - 5"], 3),
    # a read of what was put over before it began
    (["0 1 put 5 new", "2 3 put 6 replaced", "4 5 get - 5"], 2),
    # an addition that is lost, and two that overlap
    (["0 1 add 1 1", "2 3 add 1 1"], 1),
    (["0 9 add 1 1", "1 8 add 1 1"], 0),
    (["0 9 add 1 2", "1 8 add 1 1"], None),
    # calls that touch at one time overlap
    (["0 1 put 5 new", "1 2 get - absent"], None),
    # a read ahead of the put that it read
    (["0 1 get - 5", "2 3 put 5 new"], 0),
    (["0 1 del - deleted"], 0),
    (["0 9 del - deleted", "1 2 put 5 new", "3 4 get - 5"], None),
]


def calls_of(rows, key="a"):
    return linearizable.read([f"{key} 0 {row}" for row in rows])


def all_orders(calls):
    """Whether some order of the calls keeps to time and has their replies: each order is tried."""
    def goes_on(state, left):
        if not left:
            return True
        for index in left:
            if all(calls[other].end >= calls[index].begin for other in left):
                after, reply = linearizable.answer(state, calls[index])
                if reply == calls[index].reply and goes_on(after, left - {index}):
                    return True
        return False
    return goes_on(None, frozenset(range(len(calls))))


def random_history(chosen, threads, each):
    """Calls of threads on one key, each of which takes effect at a moment of its own between its begin and its end."""
    moments, calls, state = [], [], None
    for thread in range(threads):
        times = sorted(chosen.sample(range(1000 * each), 3 * each))
        moments += [(*times[3 * k:3 * k + 3], thread) for k in range(each)]
    for number, (begin, _, end, thread) in enumerate(sorted(moments, key=lambda times: times[1]), 1):
        operation = chosen.choice(["put", "del", "add", "get", "get"])
        argument = {"put": str(1000 * number), "add": "1"}.get(operation, "-")
        call = linearizable.Call("a", str(thread), begin, end, operation, argument, "")
        state, reply = linearizable.answer(state, call)
        calls.append(call._replace(reply=reply))
    return calls


class Histories(unittest.TestCase):
    def test_each_row(self):
        for rows, wrong in ROWS:
            calls = calls_of(rows)
            with self.subTest(rows):
                self.assertEqual(linearizable.judge(calls), None if wrong is None else calls[wrong])
                self.assertEqual(all_orders(calls), wrong is None)

    def test_keys_are_judged_one_by_one(self):
        calls = calls_of(ROWS[0][0], "a") + calls_of(["0 1 get - absent", "2 3 get - 5"], "b")
        self.assertEqual(linearizable.judge(calls), calls[-1])

    def test_the_search_agrees_with_all_orders(self):
        chosen, wrong = random.Random(57), 0
        for _ in range(300):
            calls = random_history(chosen, 3, 2)
            self.assertIsNone(linearizable.first_wrong(calls))
            index = chosen.randrange(len(calls))
            calls[index] = calls[index]._replace(reply=chosen.choice(calls).reply)
            legal = all_orders(calls)
            wrong += not legal
            self.assertEqual(linearizable.first_wrong(calls) is None, legal)
        self.assertGreater(wrong, 100)

    def test_a_false_reply_is_found(self):
        chosen = random.Random(58)
        for _ in range(20):
            calls = random_history(chosen, 4, 50)
            self.assertIsNone(linearizable.judge(calls))
            false = linearizable.falsified(calls)
            self.assertEqual(sum(one != other for one, other in zip(calls, false)), 1)
            self.assertIsNotNone(linearizable.judge(false))

    def test_statuses(self):
        texts = {
            "good": "a 0 0 1 put 5 new\na 0 2 3 get - 5\na 1 4 5 put 6 replaced\na 0 6 7 get - 6\n",
            "stale": "a 0 0 1 put 5 new\na 0 2 3 get - absent\n",
            "short": "a 0 0 1 put 5\n",
            "backward": "a 0 3 1 put 5 new\n",
            "no_number": "a 0 0 1 put x new\n",
        }
        with tempfile.TemporaryDirectory() as folder:
            for name, text in texts.items():
                (Path(folder) / name).write_text(text)
            def status(*words):
                with contextlib.redirect_stdout(io.StringIO()), contextlib.redirect_stderr(io.StringIO()):
                    return linearizable.main([word if word.startswith("-") else str(Path(folder) / word) for word in words])
            self.assertEqual(status("good"), 0)
            self.assertEqual(status("--falsify", "good"), 0)
            for name in ("stale", "short", "backward", "no_number", "missing"):
                self.assertEqual(status(name), 1)
            self.assertEqual(status("--falsify", "short"), 1)
            self.assertEqual(status("--help"), 0)
            self.assertEqual(status(), 2)
