"""The package's calls on the examples of the repository, and on what it could get wrong."""

import concurrent.futures
import ctypes
import dataclasses
import doctest
import json
import os
import subprocess
import sys
import unittest

import girzohal
from girzohal import Label, Look, Report, Severity, Sources, Theme, Unit, draw, draw_document, json_document

HERE = os.path.dirname(os.path.abspath(__file__))
EXAMPLES = os.path.join(HERE, "..", "..", "..", "examples")
ASCII = Look(Theme.NONE)
COUNTED = {
    Unit.BYTES: lambda text: len(text.encode()),
    Unit.CHARACTERS: len,
    Unit.UTF16: lambda text: len(text.encode("utf-16-le")) // 2,
}


def character_of(source, place):
    """The index of a row and a column, both from 1; a byte order mark at the beginning is no column."""
    row, column = place
    at = sum(len(line) for line in source.splitlines(keepends=True)[: row - 1])
    mark = at == 0 and source.startswith("\ufeff")
    return at + column - 1 + mark


def ends(source, label, unit):
    """The start and the end of a label in a unit."""
    if "bytes" in label:
        places = [len(source.encode()[:at].decode()) for at in label["bytes"]]
    else:
        places = [character_of(source, label[end]) for end in ("start", "end")]
    return [COUNTED[unit](source[:place]) for place in places]


def document_of(name):
    """An example, as bytes."""
    with open(os.path.join(EXAMPLES, name + ".json"), "rb") as file:
        return file.read()


def example(name, unit=Unit.BYTES):
    """The sources and the reports of an example, and its drawing."""
    said = json.loads(document_of(name))
    with open(os.path.join(EXAMPLES, name + ".txt"), encoding="utf-8", newline="") as file:
        drawing = file.read()
    sources, reports = Sources(unit), []
    for each in said["files"]:
        sources.add(each["name"], each["source"])
    for each in said["reports"]:
        source = said["files"][each["file"]]["source"]
        labels = [
            Label(*ends(source, label, unit), label.get("text"), label.get("primary", False)) for label in each.get("labels", [])
        ]
        parts = {part: each[part] for part in ("scope", "number", "help", "note", "url") if part in each}
        severity = Severity[each.get("severity", "error").upper()]
        reports.append(Report(severity, each["message"], each["file"], labels=labels, **parts))
    return sources, reports, drawing


NAMES = sorted(name[:-5] for name in os.listdir(EXAMPLES) if name.endswith(".json"))


def one(source, unit=Unit.BYTES):
    sources = Sources(unit)
    sources.add("a.txt", source)
    return sources


class Calls(unittest.TestCase):
    def test_examples_are_drawn(self):
        self.assertGreaterEqual(len(NAMES), 10)
        for name in NAMES:
            with self.subTest(name):
                for unit in Unit:
                    files, reports, drawing = example(name, unit)
                    for _ in range(2):
                        self.assertEqual(draw(files, reports, ASCII), drawing)
                lines = girzohal.json(files, reports)
                self.assertEqual([json.loads(line)["message"] for line in lines.splitlines()], [r.message for r in reports])

    def test_documents_are_drawn(self):
        for name in NAMES:
            with self.subTest(name):
                files, reports, drawing = example(name)
                document = document_of(name)
                self.assertEqual(draw_document(document, ASCII), drawing)
                self.assertEqual(draw_document(document.decode(), ASCII), drawing)
                self.assertEqual(json_document(document), girzohal.json(files, reports))

    def test_documents_that_are_refused(self):
        files = [{"name": "a.txt", "source": "é\nabc"}]

        def drawn(file, labels):
            said = [{"file": 0, "message": "m"}, {"file": file, "message": "m", "labels": labels}]
            return draw_document(json.dumps({"version": 2, "files": files, "reports": said}))

        for label, at_end in (({"bytes": [1, 2]}, False), ({"start": [2, 4], "end": [2, 5]}, True)):
            with self.assertRaises(girzohal.NoPlace) as raised:
                drawn(0, [label])
            error = raised.exception
            self.assertEqual((error.report, error.label, error.at_end), (1, 0, at_end))
        with self.assertRaises(girzohal.EndBeforeStart) as raised:
            drawn(0, [{"start": [2, 3], "end": [2, 1]}])
        self.assertEqual((raised.exception.start, raised.exception.end), (5, 3))
        with self.assertRaises(girzohal.UnknownFile) as raised:
            drawn(1, [])
        self.assertEqual(str(raised.exception), "report 1: there is no such file")
        for none in ("", b"", "{", "[]", "{}", b"\xff", '{"files":[],"reports":[]} x'):
            for call in (draw_document, json_document):
                with self.subTest(none), self.assertRaises(girzohal.NoDocument):
                    call(none)
        with self.assertRaises(girzohal.WrongLook):
            draw_document("{", Look(tabs=0))
        self.assertEqual(draw_document('{"files":[],"reports":[]}'), "")

    def test_a_small_first_buffer_of_a_document_is_followed_by_one_that_fits(self):
        row, label = "x" * 3000, {"start": [1, 1], "end": [1, 2], "text": "y"}
        said = [{"file": 0, "message": "m", "labels": [label]}] * 100
        document = json.dumps({"files": [{"name": "a.txt", "source": row}], "reports": said})
        self.assertEqual(draw_document(document).count(row), 100)

    def test_themes_differ(self):
        files, reports = one("let x = 1;\n"), [Report.error("oops").label(4, 5, "here")]
        self.assertIn("\x1b[", draw(files, reports, Look(Theme.UNICODE)))
        self.assertIn("╭", draw(files, reports))
        self.assertNotIn("\x1b", draw(files, reports))
        self.assertTrue(draw(files, reports, ASCII).isascii())

    def test_refusals(self):
        files = one("é\nabc")
        rows = [(1, 2, False), (0, 1, True), (0, 7, True), (7, 7, False), (0, 2**70, True), (-1, 2, False), (2**32, 2**32, False)]
        for start, end, at_end in rows:
            with self.subTest((start, end)), self.assertRaises(girzohal.NoPlace) as raised:
                draw(files, [Report.error("m"), Report.error("m").label(start, end)])
            self.assertEqual((raised.exception.report, raised.exception.label, raised.exception.at_end), (1, 0, at_end))
        with self.assertRaises(girzohal.EndBeforeStart) as raised:
            draw(files, [Report.error("m").label(0, 2).label(5, 3)])
        self.assertEqual(str(raised.exception), "report 0: label 1: its end 3 is before its start 5")
        draw(files, [Report.error("m").label(6, 6)])

    def test_wrong_arguments(self):
        files, right = one("x"), Report.error("m")
        for wrong in (*(Report.error("m", file=at) for at in (1, -1, 2**40)), right.code("", "n"), right.code("s", ""), Report(7, "m")):
            with self.assertRaises(girzohal.WrongReport) as raised:
                draw(files, [right, wrong])
            self.assertEqual(raised.exception.report, 1)
        draw(files, [Report.advice("", help="", note="", url="").label(0, 0, "")])
        rows = [(Look(tabs=0), "tabs"), (Look(tabs=17), "tabs"), (Look(tabs=-1), "tabs"), (Look(tabs=2**40), "tabs"), (Look(theme=3), "theme")]
        for look, field in rows:
            with self.subTest(look), self.assertRaises(girzohal.WrongLook) as raised:
                draw(files, [], look)
            self.assertEqual(raised.exception.field, field)
        for width in (-1, 0, 2**80):
            self.assertIn("m", draw(files, [right], Look(width=width)))

    def test_nothing_is_drawn_of_nothing(self):
        self.assertEqual(draw(Sources(), []), "")
        self.assertEqual(draw(one(""), []), "")
        self.assertEqual(girzohal.json(Sources(), []), "")
        self.assertEqual(draw(one(""), [Report.error("m")], ASCII), "\n  x m\n")
        with self.assertRaises(girzohal.WrongReport):
            draw(Sources(), [Report.error("m")])

    def test_texts_of_all_kinds_are_drawn(self):
        report = Report.warning("grün \0 日本", note="ñ", help="ü").label(3, 6, "日\0本")
        drawn = draw(one("日本 \0\té\n"), [report])
        for text in ("grün", "日本", "ñ", "ü"):
            self.assertIn(text, drawn)
        with self.assertRaises(UnicodeEncodeError):
            draw(one("\ud800"), [])

    def test_a_report_is_left_as_it_was(self):
        right = Report.error("m")
        right.label(0, 1).code("s", "n")
        self.assertEqual(right, Report(Severity.ERROR, "m"))
        for changed in (right, right.label(0, 1).labels[0], ASCII):
            with self.assertRaises(dataclasses.FrozenInstanceError):
                changed.file = 3
        self.assertEqual(hash(right.label(0, 1)), hash(Report(Severity.ERROR, "m", labels=[Label(0, 1)])))

    def test_a_small_first_buffer_is_followed_by_one_that_fits(self):
        report = Report(Severity.ERROR, "m", labels=[Label(2 * row, 2 * row + 1, "y") for row in range(2000)])
        drawn = draw(one("x\n" * 2000), [report], ASCII)
        self.assertEqual(drawn.count("`-- y"), 2000)
        self.assertGreater(len(drawn), 2 * 6001 + 256 + 4096)

    def test_many_reports_are_drawn_as_alone(self):
        files, report = one("let x = 1;\n"), Report.error("oops").label(4, 5, "here")
        self.assertEqual(draw(files, [report] * 10_000), draw(files, [report]) * 10_000)

    def test_threads_draw_at_once(self):
        examples = [example(name) for name in NAMES]

        def often(_):
            drawn = all(draw(files, reports, ASCII) == drawing for _ in range(20) for files, reports, drawing in examples)
            return drawn and all(draw_document(document_of(name), ASCII) == example(name)[2] for name in NAMES)

        with concurrent.futures.ThreadPoolExecutor(8) as pool:
            self.assertEqual(list(pool.map(often, range(8))), [True] * 8)

    def test_units_are_converted(self):
        text = "a\u00e9\u65e5\U0001f44d\n" * 700
        by_bytes = one(text)
        for unit in (Unit.CHARACTERS, Unit.UTF16):
            sources = Sources(unit)
            for name, source in (("\U0001f44d", ""), ("a.txt", text), ("last", "\u00e9")):
                sources.add(name, source)
            count = COUNTED[unit]
            for at in range(0, len(text), 37):
                start, end = len(text[:at].encode()), len(text[: at + 1].encode())
                want = girzohal.json(by_bytes, [Report.error("m").label(start, end)])
                report = Report.error("m", file=1).label(count(text[:at]), count(text[: at + 1]))
                self.assertEqual(girzohal.json(sources, [report]), want)
            places = {count(text[:at]): len(text[:at].encode()) for at in range(len(text) + 1)}
            for at in range(count(text) + 3):
                self.assertEqual(sources._byte_of(1, at), places.get(at, 2**32 - 1))
            self.assertEqual([sources._byte_of(0, at) for at in range(2)], [0, 2**32 - 1])
            self.assertEqual([sources._byte_of(2, at) for at in range(3)], [0, 2, 2**32 - 1])

    def test_places_that_are_not_there_in_a_unit(self):
        sources = one("\U0001f44dx", Unit.UTF16)
        for start, end, at_end in ((1, 2, False), (0, 1, True), (0, 4, True), (-1, 0, False), (2**70, 2**70, False)):
            with self.subTest((start, end)), self.assertRaises(girzohal.NoPlace) as raised:
                draw(sources, [Report.error("m").label(start, end)])
            self.assertEqual(raised.exception.at_end, at_end)
        with self.assertRaises(girzohal.EndBeforeStart) as raised:
            draw(sources, [Report.error("m").label(3, 2)])
        self.assertEqual((raised.exception.start, raised.exception.end), (3, 2))
        with self.assertRaises(ValueError):
            Sources("rows")

    def test_sources_are_laid_out_once(self):
        sources, report = one("first"), Report.error("m", file=1).label(0, 1)
        for _ in range(3):
            with self.assertRaises(girzohal.WrongReport):
                draw(sources, [report])
            self.assertEqual([bytes(room) for room in sources._rooms], [b"a.txtfirst"])
        self.assertEqual(sources.add("b.txt", "second"), 1)
        self.assertIn("second", draw(sources, [report]))
        self.assertEqual((len(sources), len(sources._rooms)), (2, 1))

    def test_threads_draw_from_the_same_sources(self):
        sources, report = one("let x = 1;\n"), Report.error("m").label(4, 5, "here")
        alone = draw(sources, [report])
        with concurrent.futures.ThreadPoolExecutor(8) as pool:
            drawn = list(pool.map(lambda _: draw(sources, [report]), range(2000)))
        self.assertEqual(set(drawn), {alone})

    def test_an_import_error_says_what_to_do(self):
        for path in (os.devnull, os.path.join(HERE, "no such file"), __file__):
            given = {**os.environ, "GIRZOHAL_LIBRARY": path, "PYTHONPATH": os.path.dirname(os.path.dirname(girzohal.__file__))}
            ran = subprocess.run([sys.executable, "-c", "import girzohal"], env=given, capture_output=True, text=True)
            self.assertEqual(ran.returncode, 1)
            self.assertRegex(ran.stderr.splitlines()[-1], "^ImportError: girzohal: .*Install the wheel .* GIRZOHAL_LIBRARY")

    def test_versions_agree(self):
        with open(os.path.join(HERE, "..", "..", "..", "VERSION"), encoding="utf-8") as file:
            self.assertEqual(".".join(map(str, girzohal.version())), file.read().strip())
        self.assertEqual(".".join(map(str, girzohal.version())), girzohal.__version__)

    @unittest.skipUnless(hasattr(girzohal._library, "girzohal_starve"), "the library's allocations can't be made to fail")
    def test_out_of_memory(self):
        library = girzohal._library
        library.girzohal_starve.argtypes, library.girzohal_asked.restype = [ctypes.c_int64], ctypes.c_int64
        for name in NAMES:
            files, reports, drawing = example(name)
            lines, document = girzohal.json(files, reports), document_of(name)
            calls = [
                (lambda: draw(files, reports, ASCII), drawing),
                (lambda: girzohal.json(files, reports), lines),
                (lambda: draw_document(document, ASCII), drawing),
                (lambda: json_document(document), lines),
            ]
            for call, said in calls:
                library.girzohal_starve(-1)
                self.assertEqual(call(), said)
                asked, failures = library.girzohal_asked(), 0
                for at in range(asked):
                    library.girzohal_starve(at)
                    try:
                        self.assertEqual(call(), said)
                    except girzohal.OutOfMemory:
                        failures += 1
                    library.girzohal_starve(-1)
                self.assertGreater(failures, 0, name)


def load_tests(_loader, tests, _pattern):
    tests.addTests(doctest.DocTestSuite(girzohal))
    return tests


if __name__ == "__main__":
    unittest.main()
