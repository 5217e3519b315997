"""Sessions, answers and dumps as values."""
import unittest

import planted
from support import FIRST, SESSIONS, read
from lib.inputs import session, verdict
from lib.judge import answers


class Sessions(unittest.TestCase):
    def test_a_session(self) -> None:
        found = session.parse(b"; one\n" + FIRST.data.replace(b"eq 3 4\n", b";\neq 3 4\n"))
        self.assertEqual((found.areas, found.registers, len(found.commands)), (["work"], 8, 10))
        self.assertEqual(found.commands[5], (12, 6, "eq 3 4"))
        self.assertEqual((found.line_in_file(10), found.line_in_file(99)), (12, 99))
        self.assertEqual(found.text(), FIRST.data)
        self.assertEqual((found.is_commented, session.parse(FIRST.data).is_commented), (True, False))

    def test_an_input_is_given_back_byte_for_byte(self) -> None:
        for name in SESSIONS:
            self.assertEqual(session.parse(read(name, "in")).text(), read(name, "in"), name)
        for data in (b"", b"\n", b"\n\n", b"end", bytes(range(256))):
            self.assertEqual(session.parse(data).text(), data)

    def test_cut(self) -> None:
        trace = session.parse(FIRST.data)
        head = FIRST.data[:FIRST.data.index(b"set")]
        self.assertEqual(trace.cut(0).text(), head + b"end\n")
        self.assertEqual(trace.cut(2, "stats", "dump").text(), head + b"set 0 5\ncons 1 work 0 0\nstats\ndump\nend\n")
        self.assertEqual(trace.cut(99).text(), FIRST.data)
        self.assertEqual([command.number for command in trace.cut(2, "stats", "dump").commands], [1, 2, 3, 4])

    def test_a_cut_input_is_whole(self) -> None:
        data = next(planted.inputs())
        trace = session.parse(data)
        for count in range(0, len(trace.commands), 7):
            self.assertEqual(verdict.judge(trace.cut(count, "dump").text()).status, 0)


class Answers(unittest.TestCase):
    def test_sessions(self) -> None:
        """Each command of a session has a reply, up to the line that is refused."""
        for name in SESSIONS:
            data = read(name, "in")
            found, judged = answers.split(session.parse(data), read(name, "out")), verdict.judge(data)
            if judged.world is not None:
                self.assertEqual((len(found.answers), found.error, found.rest), (len(judged.commands), judged.error(), []), name)

    def test_outputs_that_are_cut(self) -> None:
        trace = session.parse(FIRST.data.replace(b"end\n", b"stats\ndump\nstats\nend\n"))
        whole = FIRST.replies + b"area work 6 6\nlispm-world 2\nspace\nend-world\narea work 6 6\n"
        found = answers.split(trace, whole)
        self.assertEqual([len(answer.lines) for answer in found.answers], [1] * 11 + [3, 1])
        for end in range(len(whole)):
            found = answers.split(trace, whole[:end])
            lines = [line for answer in found.answers for line in answer.lines]
            self.assertEqual((lines, found.error, found.rest), (answers.lines_of(whole[:end]), None, []))
        found = answers.split(trace, FIRST.replies + b"area work 6 6\nlispm-world 2\nerror: no memory\nok\n")
        self.assertEqual((found.answers[-1].lines, found.error, found.rest), (["lispm-world 2"], "error: no memory", ["ok"]))
