"""Calls from several threads, and from one with a small stack."""

import subprocess
import sys
import threading
import time
import unittest
from concurrent.futures import ThreadPoolExecutor
from unittest import mock

import zorambi
from zorambi import Growing, Refusal, Refused, Schema, Standing

from . import common
from .test_beside import Inputs


def all_of_a_record(folder: object) -> list:
    """What each function says of a record, as values that can be compared."""
    schema, proof = common.texts(folder)  # type: ignore[arg-type]
    record = common.record(folder)  # type: ignore[arg-type]
    said: list = [zorambi.check(record), zorambi.check_older(record), zorambi.check_texts(schema, proof)]
    for make in (
        zorambi.tidy, lambda record: zorambi.join(record, record), lambda record: zorambi.find_model(record.schema, 2)
    ):
        try:
            said.append(make(record))
        except Refused as refused:
            said.append(str(refused))
    said += [zorambi.write_schema(record.schema), zorambi.write_proof(record.proof)]
    try:
        growing = Growing(record.schema, record.proof.rows)
        for row, members in common.node_rows(record.proof):
            growing.add(row, members)
        said.append(growing.standing)
    except Refused as refused:
        said.append(str(refused))
    return said


class Threads(unittest.TestCase):
    def test_the_same_from_several_threads(self) -> None:
        folders = common.folders("accepted") + common.folders("refused")
        alone = [all_of_a_record(folder) for folder in folders]
        with ThreadPoolExecutor(4) as pool:
            for _ in range(3):
                self.assertEqual(list(pool.map(all_of_a_record, folders)), alone)

    def test_every_entry_from_several_threads(self) -> None:
        cases = [(name, make()) for name, make in Inputs().of().items() for _ in range(6)]
        alone = [common.called(*case) for case in cases]
        with ThreadPoolExecutor(4) as pool:
            for _ in range(2):
                self.assertEqual(list(pool.map(lambda case: common.called(*case), cases)), alone)

    def test_one_tableau_by_several_threads(self) -> None:
        """Each row is added whole, whichever thread it comes from."""
        growing = Growing(Schema(1, 0, [(0, 0, 0, 0), (4, 0, 0, 0)]))
        growing.add((-1, 0, 1, -1, -1, -1, 0), [1])

        def add_some(_: int) -> int:
            added = 0
            while added < 60:
                try:
                    growing.add((growing.standing.nodes - 1, 0, 1, -1, -1, -1, 0), [1])
                    added += 1
                except Refused as refused:  # another thread added a child to that node meanwhile
                    assert refused.refusal is Refusal.CHILDREN, refused
            return added

        with ThreadPoolExecutor(4) as pool:
            self.assertEqual(sum(pool.map(add_some, range(4))), 240)
        self.assertEqual(growing.standing.nodes, 241)
        self.assertEqual([growing.row(number)[0][0] for number in range(241)], list(range(-1, 240)))
        self.assertEqual(zorambi.check(growing.record()).refusal, Refusal.CHILDREN)

    def test_calls_on_one_tableau_wait_for_one_another(self) -> None:
        growing = Growing(Schema(1, 0, [(0, 0, 0, 0), (4, 0, 0, 0)]))
        inside, most = [], []

        def slow(*_: object) -> Standing:
            inside.append(1)
            most.append(len(inside))
            time.sleep(0.005)
            inside.pop()
            return Standing()

        row = ((-1, 0, 1, -1, -1, -1, 0), [1])
        changes = [growing.take_back, growing.commit, growing.begin]
        calls = [lambda: growing.add(*row), lambda: growing.enquire(*row), *changes]
        with mock.patch.object(growing, "_call", slow), ThreadPoolExecutor(5) as pool:
            for call in calls:
                for waited in [pool.submit(each) for each in (call, *calls)]:
                    waited.result()
        self.assertEqual((len(most), max(most)), (30, 1))

    def test_a_small_stack(self) -> None:
        """In a process of its own: a stack that is too small ends it."""
        program = (
            "import threading\n"
            "from tests.test_threads import all_of_a_record\n"
            "from tests import common\n"
            "threading.stack_size(262144)\n"
            "said = []\n"
            "folders = common.folders('accepted') + common.folders('refused')\n"
            "thread = threading.Thread(target=lambda: said.extend(map(all_of_a_record, folders)))\n"
            "thread.start()\n"
            "thread.join()\n"
            "print(len(said))\n"
        )
        done = subprocess.run(
            [sys.executable, "-c", program], cwd=common.PACKAGE.parent, capture_output=True, text=True, check=False
        )
        expected = len(common.folders("accepted") + common.folders("refused"))
        self.assertEqual((done.returncode, done.stdout, done.stderr), (0, f"{expected}\n", ""))
        self.assertLess(zorambi.STACK, 262144)
        self.assertEqual(threading.stack_size(), 0)


if __name__ == "__main__":
    unittest.main()
