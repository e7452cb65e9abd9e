"""Charts in the terminal and as pictures."""

import re
import shlex
import subprocess
import sys
import tempfile
import unittest
from pathlib import Path

TOP = Path(__file__).resolve().parents[2]
sys.path.insert(0, str(TOP / "tools" / "lib"))

import charts  # noqa: E402
import replies  # noqa: E402
from widths import cut_apart  # noqa: E402

HOURS = "rows 4\nHour:datetime\tHost:string\tFailed:long\tSlowest:timespan\n" + "".join(
    f"2024-03-01T{hour}:00:00.0000000Z\t{host}\t{count}\t{took}\n"
    for hour, host, count, took in (
        (10, "web-1", 2, "00:00:05"),
        (11, "web-1", 4, "00:00:01"),
        (10, "web-2", 1, "00:00:02.5000000"),
        (11, "web-2", "null", "null"),
    )
) + "\n"
HOSTS = "rows 3\nHost:string\tN:long\nweb-1\t8\nweb-2\t4\nweb-3\t0\n\n"


def made(text, kind, **named):
    return charts.make(replies.read(text)[0], kind, **named)


class Making(unittest.TestCase):
    def test_columns_are_chosen_by_their_types(self):
        chart = made(HOURS, "time", y=["Failed"])
        self.assertEqual((chart.x_name, chart.y_name), ("Hour", "Failed"))
        self.assertEqual([(one.name, [y for _, y in one.points]) for one in chart.series], [("web-1", [2, 4]), ("web-2", [1, None])])
        self.assertEqual(chart.notes, ["1 point is null and isn't drawn"])

    def test_timespans_are_seconds(self):
        self.assertEqual([y for _, y in made(HOURS, "time", y=["Slowest"]).series[1].points], [2.5, None])

    def test_several_columns_are_several_series(self):
        text = "rows 2\nT:long\tA:long\tB:int\n2\t1\t5\n1\t3\t7\n\n"
        self.assertEqual(made(text, "line").series, [("A", [(1, 3), (2, 1)]), ("B", [(1, 7), (2, 5)])])

    def test_what_cannot_be_drawn_is_told(self):
        for text, named, why in (
            (HOURS, {"kind": "time"}, "numbers and timespans don't share an axis"),
            (HOURS, {"kind": "time", "x": "Host"}, "is a datetime, and Host is of type string"),
            (HOURS, {"kind": "time", "y": ["None"]}, "no column None; it has Hour, Host"),
            (HOURS, {"kind": "bar", "x": "Host", "y": ["Failed"], "by": "Host"}, "two rows of web-1 have the label web-1"),
            (HOSTS, {"kind": "time"}, "no column is left for the x"),
            (HOSTS, {"kind": "bar", "y": ["Host"]}, "Host is of type string"),
            ("rows 0\nHost:string\tN:long\n\n", {"kind": "bar"}, "has no rows to draw"),
            (HOURS, {"kind": "bar", "x": "Host", "y": ["Failed", "Slowest"]}, "don't share an axis"),
        ):
            with self.assertRaisesRegex(charts.ChartError, why):
                made(text, **named)

    def test_many_series_are_cut_to_the_largest(self):
        rows = "".join(f"2024-03-0{day}T00:00:00.0000000Z\ts{at}\t{at}\n" for at in range(12) for day in (1, 2))
        chart = made(f"rows 24\nD:datetime\tS:string\tN:long\n{rows}\n", "time")
        self.assertEqual([one.name for one in chart.series], [f"s{at}" for at in range(4, 12)])
        self.assertEqual(chart.notes, ["4 of 12 series aren't drawn, those with the smallest sums"])


class Drawing(unittest.TestCase):
    def test_bars_are_as_long_as_their_numbers(self):
        lines = charts.draw(made(HOSTS, "bar", title="Requests"), places=30)
        self.assertEqual(lines, ["Requests", "Host  │ N", "web-1 │ " + "█" * 20 + " 8", "web-2 │ " + "█" * 10 + " 4", "web-3 │  0"])

    def test_curves_have_their_ends_at_the_axes(self):
        lines = charts.draw(made("rows 2\nX:long\tY:long\n0\t0\n10\t100\n\n", "line"), places=40, height=8)
        self.assertTrue(lines[1].startswith("100 ┤") and lines[8].startswith("  0 ┤"))
        self.assertEqual(len(lines[1]), len(lines[9]))
        self.assertRegex(lines[10], r"^ +0 +5 +10$")

    def test_series_are_told_apart_with_and_without_colours(self):
        chart = made(HOURS, "time", y=["Failed"])
        marked, coloured = ("\n".join(charts.draw(chart, colour=colour)) for colour in (False, True))
        self.assertIn("o web-1  x web-2", marked)
        self.assertNotIn("\x1b", marked)
        self.assertIn("\x1b[33m█\x1b[0m web-2", coloured)

    def test_one_point_has_an_axis_that_can_be_read(self):
        lines = charts.draw(made("rows 1\nAt:datetime\tN:long\n2024-03-01T10:00:00.0000000Z\t5\n\n", "time"), places=60, height=8)
        self.assertEqual(lines[-2].strip(), "2024-03-01 10:00:00")
        self.assertEqual(lines[1].index("⣿"), lines[1].index("┤") + 1 + (len(lines[-3]) - 5) // 2)

    def test_bars_of_negative_numbers_go_the_other_way(self):
        lines = charts.draw(made("rows 3\nH:string\tN:long\na\t-5\nb\t10\nc\t0\n\n", "bar"), places=30)
        zero = lines[2].index("│", 4)
        self.assertEqual([line.rindex("│") for line in lines[1:]], [zero] * 3)
        self.assertEqual([line.count("█") for line in lines[1:]], [7, 14, 0])
        self.assertLess(lines[1].index("█"), zero)
        self.assertGreater(lines[2].index("█"), zero)

    def test_labels_are_cut_in_their_middle_and_stay_different(self):
        names = ["/api/v1/" + "x" * 40 + end for end in ("/a", "/b")] + ["/" + sign * 3 + "y" * 40 for sign in "pq"]
        text = "rows 4\nPath:string\tN:long\n" + "".join(f"{name}\t1\n" for name in names) + "\n"
        heads = [line.split("│")[0].strip() for line in charts.draw(made(text, "bar"), places=60)[1:]]
        self.assertEqual(len(set(heads)), 4, heads)
        self.assertTrue(heads[0].endswith("/a") and heads[0].startswith("/api") and "…" in heads[0], heads)

    def test_names_that_differ_only_in_their_middle_stay_different(self):
        texts = ["a" * 50 + str(number) + "b" * 50 for number in range(12)]
        found = cut_apart(texts, 12)
        self.assertEqual((len(set(found.values())), {len(text) for text in found.values()}), (12, {12}))

    def test_no_line_is_drawn_over_empty_points(self):
        text = "rows 5\nX:long\tY:long\n0\t5\n1\t5\n2\tnull\n3\t5\n4\t5\n\n"
        row = charts.draw(made(text, "line"), places=44, height=4)[1][3:]
        self.assertEqual([len(run) > 5 for run in row.split()], [True, True], row)
        self.assertIn(" " * 10, row.strip())

    def test_a_step_that_a_series_lacks_is_an_empty_point(self):
        rows = "".join(f"{x}\t{name}\t5\n" for x in range(6) for name in "ab" if (x, name) != (3, "b"))
        series = made(f"rows 11\nX:long\tS:string\tY:long\n{rows}\n", "line").series
        self.assertEqual([one.points[3] for one in series], [(3, 5), (3, None)])
        # Where the x have no steps, nothing says that one is missing.
        series = made("rows 3\nX:long\tY:long\n0\t1\n1\t1\n100\t1\n\n", "line").series
        self.assertEqual(len(series[0].points), 3)

    def test_large_numbers_are_short_at_an_axis(self):
        lines = charts.draw(made("rows 2\nX:long\tY:long\n1\t0\n2\t9200000000000000000\n\n", "line"), height=8)
        self.assertTrue(lines[1].startswith("10E ┤"), lines[1])
        self.assertEqual([charts.plain_numbers(number, 0) for number in (8e18, 2e15)], ["8E", "2P"])

    def test_no_name_of_a_column_steers_the_terminal(self):
        text = "rows 1\nS\x1b[2J:string\tN\u202e:long\nx\x9b\t1\n\n"
        shown = "\n".join(charts.draw(made(text, "bar")))
        self.assertNotRegex(shown, "[\x1b\x9b\u202e]")
        self.assertIn("N\\u202e", shown)

    def test_numbers_that_are_all_equal_are_drawn(self):
        for text in ("rows 1\nX:long\tY:long\n5\t0\n\n", "rows 2\nX:long\tY:long\n5\t-3\n6\t-3\n\n"):
            self.assertEqual(len(charts.draw(made(text, "line"), height=6)), 10)
        self.assertEqual(len(charts.draw(made("rows 1\nS:string\tY:long\n\t0\n\n", "bar"))), 2)

    def test_ends_of_axes_are_round(self):
        self.assertEqual([charts.rounded_up(high) for high in (0, 1, 7, 9, 11, 160)], [0, 1, 8, 10, 15, 200])


class Pictures(unittest.TestCase):
    def test_numbers_at_an_axis_are_short(self):
        numbers = (0, 0.25, 5000, 20000, -2e6, 1.5e9)
        self.assertEqual([charts.plain_numbers(number, 0) for number in numbers], ["0", "0.25", "5,000", "20k", "-2M", "1.5G"])

    def test_a_picture_is_the_same_each_time(self):
        try:
            import matplotlib  # noqa: F401
        except ImportError:
            self.skipTest("matplotlib isn't installed")
        with tempfile.TemporaryDirectory() as folder:
            for text, named in ((HOURS, {"kind": "time", "y": ["Failed"], "title": "$x$ _y"}), (HOSTS, {"kind": "bar"})):
                paths = [Path(folder) / name for name in ("a.svg", "b.svg")]
                for path in paths:
                    charts.save(made(text, **named), path)
                self.assertEqual(paths[0].read_bytes(), paths[1].read_bytes())
                self.assertIn(b"web-1", paths[0].read_bytes())
            for text in (HOURS.replace("2\t00:00:05", "null\tnull"), "rows 1\nT:datetime\tY:long\n2024-03-01T10:00:00.0000000Z\t5\n\n"):
                charts.save(made(text, "time", y=["Failed" if "Failed" in text else "Y"]), Path(folder) / "c.svg")
            self.assertIn(b"2024-03-01 10:00:00", (Path(folder) / "c.svg").read_bytes())
            charts.save(made(HOSTS, "bar"), Path(folder) / "a.png")
            self.assertTrue((Path(folder) / "a.png").read_bytes().startswith(b"\x89PNG"))

    def test_the_commands_of_the_page_draw_its_pictures(self):
        try:
            from matplotlib import __version__ as version
        except ImportError:
            self.skipTest("matplotlib isn't installed")
        commands = re.findall(r"(?m)^    (tools/look (?:.*\\\n)?.* docs/pictures/(\S+) < (\S+))$", (TOP / "docs" / "TOOLS.md").read_text(encoding="utf-8"))
        pictures = {path.name: path.read_bytes() for path in (TOP / "docs" / "pictures").iterdir()}
        self.assertEqual(sorted(name for _, name, _ in commands), sorted(pictures))
        if f"Matplotlib v{version}, ".encode() not in b"".join(pictures.values()):
            self.skipTest("the pictures were drawn by another matplotlib")
        with tempfile.TemporaryDirectory() as folder:
            for command, name, answers in commands:
                words = shlex.split(command.partition(" < ")[0].replace("\\\n", " "))
                words[words.index(f"docs/pictures/{name}")] = f"{folder}/{name}"
                with open(TOP / answers, "rb") as given:
                    subprocess.run([sys.executable, *words], stdin=given, cwd=TOP, check=True)
                self.assertEqual((Path(folder) / name).read_bytes(), pictures[name], name)


if __name__ == "__main__":
    unittest.main()
