"""Formats of log lines. The lines are those of RFC 3164, RFC 5424 and Apache's page on its logs."""
import argparse
import contextlib
import datetime
import io
import json
import time
import unittest

from load_runs import Folder, loaded

import load_options

COMMON = '127.0.0.1 - frank [10/Oct/2000:13:55:36 -0700] "GET /apache_pb.gif HTTP/1.0" 200 2326'
COMBINED = COMMON + ' "http://www.example.com/start.html" "Mozilla/4.08 [en] (Win98; I ;Nav)"'
ACCESS = "Timestamp:datetime, Host:string, Ident:string, User:string, Method:string, Path:string, Protocol:string, Status:long, Bytes:long"


def rows(lines, *words, name="a.log"):
    found = loaded("".join(f"{line}\n" for line in lines), *words, name=name)
    if found.status:
        raise AssertionError(found.told)
    return found.rows


class Access(unittest.TestCase):
    def test_common_log_format(self):
        found = loaded(COMMON + "\n", name="a.log")
        self.assertEqual(found.columns, ACCESS)
        self.assertEqual(found.rows, [["2000-10-10T13:55:36-07:00", "127.0.0.1", "", "frank", "GET", "/apache_pb.gif", "HTTP/1.0", "200", "2326"]])
        self.assertIn("Timestamp: 1 cell rewritten as a datetime", found.told)

    def test_combined_log_format(self):
        found = loaded(COMBINED + "\n", "--type", "Status:int", name="a.log")
        self.assertEqual(found.columns, ACCESS.replace("Status:long", "Status:int") + ", Referer:string, UserAgent:string")
        self.assertEqual(found.rows[0][9:], ["http://www.example.com/start.html", "Mozilla/4.08 [en] (Win98; I ;Nav)"])

    def test_what_a_dash_says_is_empty(self):
        line = '::1 - - [10/Oct/2000:13:55:36 -0700] "-" 408 - "-" "-"'
        self.assertEqual(rows([line]), [["2000-10-10T13:55:36-07:00", "::1", "", "", "", "", "", "408", "", "", ""]])

    def test_requests_of_another_form_stand_whole(self):
        for request, wanted in [
            ("GET /", ["GET", "/", ""]),
            (r"\x16\x03\x01", ["", r"\x16\x03\x01", ""]),
            ("GET /a b  HTTP/1.1", ["GET", "/a b ", "HTTP/1.1"]),
            ("GET /a b", ["", "GET /a b", ""]),
            (r"GET /\"q\" HTTP/1.1", ["GET", r"/\"q\"", "HTTP/1.1"]),
        ]:
            with self.subTest(request=request):
                # Beside a plain line, which is read another way where all are plain.
                for lines in (
                    [COMMON.replace("GET /apache_pb.gif HTTP/1.0", request)],
                    [COMMON] * 3 + [COMMON.replace("GET /apache_pb.gif HTTP/1.0", request)],
                ):
                    self.assertEqual(rows(lines)[-1][4:7], wanted)

    def test_requests_of_another_form_are_counted(self):
        found = loaded(
            "".join(
                COMMON.replace("GET /apache_pb.gif HTTP/1.0", request) + "\n"
                for request in ("GET /a b HTTP/1.1", "GET / HTTP/1.1", "-", r"\x16", "GET /")
            ),
            name="a.log",
        )
        self.assertIn("a.log: 1 request with a blank in the path", found.told)
        self.assertIn("a.log: 1 request not of the form METHOD PATH HTTP/VERSION: Path has the whole of them", found.told)

    def test_a_virtual_host_in_front_of_the_address(self):
        wanted = ACCESS.replace("Host:string", "VirtualHost:string, Port:long, Host:string", 1)
        found = loaded(f"www.example.com:443 {COMMON}\n", name="a.log")
        self.assertEqual((found.columns, found.rows[0][1:6]), (wanted, ["www.example.com", "443", "127.0.0.1", "", "frank"]))
        found = loaded(f"www.example.com {COMBINED}\nwww.example.com:80 2001:db8::1{COMBINED[9:]}\n", name="a.log")
        self.assertEqual(
            (found.columns, [row[1:6] for row in found.rows]),
            (
                wanted + ", Referer:string, UserAgent:string",
                [["www.example.com", "", "127.0.0.1", "", "frank"], ["www.example.com", "80", "2001:db8::1", "", "frank"]],
            ),
        )
        for line in (f"::1{COMMON[9:]}", f"2001:db8::1:7{COMMON[9:]}", f"client.example.org{COMMON[9:]}".replace("frank", "frank n stein")):
            self.assertEqual(loaded(line + "\n", name="a.log").columns, ACCESS)

    def test_fields_behind_combined(self):
        lines = [f'{COMBINED} 0.005 12 "id 7"', f"{COMBINED} 1.25 - x", COMBINED]
        found = loaded("".join(line + "\n" for line in lines), name="a.log")
        self.assertEqual(found.columns, ACCESS + ", Referer:string, UserAgent:string, Extra1:string, Extra2:long, Extra3:string")
        self.assertEqual([row[-3:] for row in found.rows], [["0.005", "12", "id 7"], ["1.25", "", "x"], ["", "", ""]])
        self.assertIn("--scale Extra1:3", found.told)
        # A line with more fields than the first ones is not of the format.
        late = loaded("".join(line + "\n" for line in [lines[0]] * 60 + [lines[0] + " 9"]), "--rejects", "bad", name="a.log")
        self.assertEqual((len(late.rows), late.rejects.decode()), (60, lines[0] + " 9\n"))

    def test_a_user_with_a_blank_and_an_agent_with_quotes(self):
        line = COMBINED.replace("frank", "frank n stein").replace("Mozilla/4.08", r"a \"b\" \\")
        self.assertEqual([rows([line])[0][place] for place in (3, 10)], ["frank n stein", r"a \"b\" \\ [en] (Win98; I ;Nav)"])

    def test_text_that_isnt_ascii_and_commas(self):
        line = COMBINED.replace("/apache_pb.gif", "/é,ü")
        self.assertEqual(rows([line, line + "\r"])[1][5], "/é,ü")

    def test_a_line_of_another_form_stops_with_its_number(self):
        found = loaded(f"{COMMON}\n{COMMON}\nserver restarted\n{COMMON}\n", name="a.log")
        self.assertEqual((found.status, found.batches), (1, []))
        self.assertIn("a.log:3: the line isn't of the format common: 'server restarted'", found.told)

    def test_rejected_lines(self):
        found = loaded(f"{COMMON}\nx\n\n{COMMON}\ny\n", "--rejects", "bad", name="a.log")
        self.assertEqual((len(found.rows), found.rejects), (2, b"x\ny\n"))

    def test_a_day_that_isnt_there(self):
        found = loaded(COMMON.replace("10/Oct", "31/Sep") + "\n", name="a.log")
        self.assertIn("a.log:1: Timestamp: '31/Sep/2000:13:55:36 -0700' is no datetime", found.told)


class Formats(unittest.TestCase):
    """Formats as nginx and Apache have them: the examples are those of their manuals."""

    COMBINED = '$remote_addr - $remote_user [$time_local] "$request" $status $body_bytes_sent "$http_referer" "$http_user_agent"'

    def test_nginx_s_combined_is_combined(self):
        found = loaded(COMBINED + "\n", "--format", "nginx:" + self.COMBINED, name="a.log")
        plain = loaded(COMBINED + "\n", name="a.log")
        self.assertEqual(found.columns, plain.columns.replace("Ident:string, ", ""))
        self.assertEqual(found.rows[0], plain.rows[0][:2] + plain.rows[0][3:])

    def test_times_of_requests_and_upstreams_are_timespans(self):
        text = '$remote_addr [$time_iso8601] "$request" $status $request_time $upstream_response_time $upstream_addr ${request_id} "$http_x_forwarded_for"'
        lines = [
            '10.0.0.1 [2024-03-01T10:00:00+01:00] "GET /a b HTTP/2.0" 200 0.005 0.004 10.0.1.1:80 4f "-"',
            '10.0.0.1 [2024-03-01T10:00:01+01:00] "-" 502 1.250 0.5, - : 0.75 10.0.1.1:80, 10.0.1.2:80 : unix:/tmp/s 50 "1.2.3.4, 5.6.7.8"',
        ]
        found = loaded("".join(line + "\n" for line in lines), "--format", "nginx:" + text, name="a.log")
        self.assertEqual(
            found.columns,
            "Timestamp:datetime, Host:string, Method:string, Path:string, Protocol:string, Status:long, RequestTime:timespan, UpstreamResponseTime:timespan, UpstreamAddr:string, RequestId:string, XForwardedFor:string",
        )
        self.assertEqual(
            found.rows[0], ["2024-03-01T10:00:00+01:00", "10.0.0.1", "GET", "/a b", "HTTP/2.0", "200", "0.005s", "0.004s", "10.0.1.1:80", "4f", ""]
        )
        self.assertEqual(found.rows[1][3:], ["", "", "502", "1.250s", "1.25s", "10.0.1.1:80, 10.0.1.2:80 : unix:/tmp/s", "50", "1.2.3.4, 5.6.7.8"])

    def test_a_whole_directive_of_nginx(self):
        text = 'log_format compression \'$remote_addr - $remote_user [$time_local] \'\n \'"$request" $status $bytes_sent \'\n \'"$http_referer" "$http_user_agent" "$gzip_ratio"\';'
        found = loaded(COMBINED + ' "2.51"\n', "--format", "nginx:" + text, name="a.log")
        self.assertEqual(
            (found.rows[0][-4:], found.columns.split(", ")[-4:]),
            (
                ["2326", "http://www.example.com/start.html", "Mozilla/4.08 [en] (Win98; I ;Nav)", "2.51"],
                ["BytesSent:long", "Referer:string", "UserAgent:string", "GzipRatio:string"],
            ),
        )

    def test_apache_s_formats(self):
        combined = r"%h %l %u %t \"%r\" %>s %b \"%{Referer}i\" \"%{User-agent}i\""
        for text in (combined, f'LogFormat "{combined}" combined', combined.replace("\\", "")):
            found = loaded(COMBINED + "\n", "--format", "apache:" + text, name="a.log")
            plain = loaded(COMBINED + "\n", name="a.log")
            self.assertEqual((found.columns, found.rows), (plain.columns, plain.rows))

    def test_other_directives_of_apache(self):
        text = '%v:%p %a %400,501{X-Request-Id}i %{sec}t %D %{ms}T %T %O %{%Y-%m-%dT%H:%M:%S}t 100%% "%U%q"'
        with contextlib.redirect_stderr(io.StringIO()), self.assertRaises(SystemExit):
            loaded("x\n", "--format", "apache:" + text)
        found = loaded(
            'example.com:80 10.0.0.1 r-7 1709294400 1234567 1234 1 512 2024-03-01T12:00:00 100% "/a" ?b\n',
            "--format",
            "apache:" + text.replace("%U%q", '%U" %q').rstrip('"'),
            name="a.log",
        )
        self.assertEqual(
            found.columns,
            "Timestamp:datetime, VirtualHost:string, Port:long, ClientAddress:string, XRequestId:string, Duration:timespan, Duration_2:timespan, Duration_3:timespan, BytesSent:long, Timestamp_2:datetime, Path:string, Query:string",
        )
        self.assertEqual(
            found.rows[0],
            [
                "2024-03-01T12:00:00Z",
                "example.com",
                "80",
                "10.0.0.1",
                "r-7",
                "1234567microsecond",
                "1234ms",
                "1s",
                "512",
                "2024-03-01T12:00:00",
                "/a",
                "?b",
            ],
        )

    def test_formats_that_cut_no_lines_are_told(self):
        for text, why in [
            ("nginx:$a$b", "between two values"),
            ("nginx:abc", "no .VARIABLE"),
            ("apache:%h %Z", "no directive %Z"),
            ("apache:%i", "needs a name"),
            ("csv2", "no format 'csv2'"),
        ]:
            with self.subTest(text=text), self.assertRaisesRegex(argparse.ArgumentTypeError, why):
                load_options.format_of(text)

    def test_lines_of_many_quotes_and_blanks_are_read_in_linear_time(self):
        words = "nginx:" + self.COMBINED
        began = time.monotonic()
        for line in (' "' * 50_000, "- [" * 50_000, '"\\"' * 50_000, "a " * 100_000):
            self.assertEqual(loaded(line + "\n", "--format", words, "--rejects", "bad", name="a.log").rows, [])
            loaded(COMBINED + line + "\n", "--rejects", "bad", name="a.log")
        self.assertLess(time.monotonic() - began, 60)


class Syslog(unittest.TestCase):
    def test_rfc_3164(self):
        with Folder() as folder:
            folder.put(
                "a.log",
                "<34>Oct 11 22:14:15 mymachine su: 'su root' failed for lonvick on /dev/pts/8\n<13>Feb  5 17:32:18 10.0.0.99 Use the BFG!\n",
                changed=datetime.datetime(2003, 12, 1, tzinfo=datetime.timezone.utc).timestamp(),
            )
            found = folder.load("a.log")
        self.assertEqual(
            found.columns, "Timestamp:datetime, Facility:long, Severity:long, Host:string, Application:string, Process:string, Message:string"
        )
        self.assertEqual(
            found.rows,
            [
                ["2003-10-11T22:14:15", "4", "2", "mymachine", "su", "", "'su root' failed for lonvick on /dev/pts/8"],
                ["2003-02-05T17:32:18", "1", "5", "10.0.0.99", "", "", "Use the BFG!"],
            ],
        )

    def test_lines_of_files_have_no_priority_and_often_a_process(self):
        lines = [
            "Oct  1 22:14:15 host sshd[42]: Accepted key: ok",
            "Oct  1 22:14:15 host systemd-resolved[1]: x",
            "2024-03-01T10:00:00.123456+01:00 host app[7]: modern",
            "Oct  1 22:14:15 host CRON[9]:",
        ]
        found = rows(lines, "--year", "2024")
        self.assertEqual(found[0], ["2024-10-01T22:14:15", "", "", "host", "sshd", "42", "Accepted key: ok"])
        self.assertEqual(found[1][4:], ["systemd-resolved", "1", "x"])
        self.assertEqual(found[2], ["2024-03-01T10:00:00.123456+01:00", "", "", "host", "app", "7", "modern"])
        self.assertEqual(found[3][4:], ["CRON", "9", ""])

    def test_rfc_5424(self):
        lines = [
            "<34>1 2003-10-11T22:14:15.003Z mymachine.example.com su - ID47 - \ufeff'su root' failed for lonvick on /dev/pts/8",
            "<165>1 2003-08-24T05:14:15.000003-07:00 192.0.2.1 myproc 8710 - - %% It's time to make the do-nuts.",
            '<165>1 2003-10-11T22:14:15.003Z mymachine.example.com evntslog - ID47 [exampleSDID@32473 iut="3" eventSource="Application" eventID="1011"] \ufeffAn application event log entry...',
            '<165>1 2003-10-11T22:14:15.003Z mymachine.example.com evntslog - ID47 [exampleSDID@32473 iut="3" eventSource="Application" eventID="1011"][examplePriority@32473 class="high"]',
        ]
        found = rows(lines)
        self.assertEqual(
            found[0],
            ["2003-10-11T22:14:15.003Z", "4", "2", "mymachine.example.com", "su", "", "ID47", "", "'su root' failed for lonvick on /dev/pts/8"],
        )
        self.assertEqual(
            found[1], ["2003-08-24T05:14:15.000003-07:00", "20", "5", "192.0.2.1", "myproc", "8710", "", "", "%% It's time to make the do-nuts."]
        )
        self.assertEqual(json.loads(found[2][7]), {"exampleSDID@32473": {"iut": "3", "eventSource": "Application", "eventID": "1011"}})
        self.assertEqual(found[2][8], "An application event log entry...")
        self.assertEqual(json.loads(found[3][7])["examplePriority@32473"], {"class": "high"})
        self.assertEqual(found[3][8], "")

    def test_structured_data_with_escapes_and_repeated_names(self):
        line = r'<165>1 - - - - - [origin ip="192.0.2.1" ip="192.0.2.129"][x y="a\"b\\c\]d"] m'
        found = rows([line])[0]
        self.assertEqual(found[:7], ["", "20", "5", "", "", "", ""])
        self.assertEqual(json.loads(found[7]), {"origin": {"ip": ["192.0.2.1", "192.0.2.129"]}, "x": {"y": 'a"b\\c]d'}})


class Json(unittest.TestCase):
    def load(self, lines, *words):
        return loaded("".join(f"{line}\n" for line in lines), *words, name="a.json")

    def test_members_are_columns(self):
        found = self.load(['{"t":"2024-03-01T10:00:00Z","n":5,"ok":true,"s":"x","o":{"b":1,"a":[1,null]},"z":null}', '{"s":"é \\u00e9","extra":[]}'])
        self.assertEqual(found.columns, "t:datetime, n:long, ok:bool, s:string, o:dynamic, z:string, extra:dynamic")
        self.assertEqual(found.rows[0], ["2024-03-01T10:00:00Z", "5", "true", "x", '{"b":1,"a":[1,null]}', "", ""])
        self.assertEqual(found.rows[1], ["", "", "", "é é", "", "", "[]"])

    def test_texts_of_numbers_stay_texts_and_mixed_members_too(self):
        found = self.load(['{"id":"007","m":1,"d":{}}', '{"id":"8","m":"x","d":"y"}'])
        self.assertEqual(found.columns, "id:string, m:string, d:dynamic")
        self.assertEqual(found.rows, [["007", "1", "{}"], ["8", "x", '"y"']])

    def test_a_text_within_a_dynamic_stays_one(self):
        found = self.load(['{"d":[1]}', '{"d":"12"}', '{"d":true}', '{"d":12}'])
        self.assertEqual([row[0] for row in found.rows], ["[1]", '"12"', "true", "12"])

    def test_numbers_with_a_fraction(self):
        lines = ['{"took":1.234,"n":1}', '{"took":2,"n":2}']
        plain = self.load(lines)
        self.assertEqual((plain.columns, plain.rows), ("took:string, n:long", [["1.234", "1"], ["2", "2"]]))
        self.assertIn("--scale took:3", plain.told)
        self.assertEqual(self.load(lines, "--scale", "took:3").rows, [["1234", "1"], ["2000", "2"]])

    def test_numbers_with_a_fraction_within_a_dynamic(self):
        lines = ['{"d":{"temp":21.50,"big":9223372036854775808,"n":1}}']
        stopped = self.load(lines)
        self.assertEqual(stopped.status, 1)
        self.assertIn("a.json:1:", stopped.told)
        self.assertIn("--on number=string", stopped.told)
        strings = self.load(lines, "--on", "number=string")
        self.assertEqual(strings.rows, [['{"temp":"21.50","big":"9223372036854775808","n":1}']])
        self.assertIn("number: 1 made strings", strings.told)
        text = self.load(lines, "--on", "number=text")
        self.assertEqual(json.loads(text.rows[0][0]), '{"temp":21.50,"big":9223372036854775808,"n":1}')
        rejected = self.load(lines + ['{"d":{}}'], "--rejects", "bad")
        self.assertEqual((rejected.rows, rejected.rejects.decode()), ([["{}"]], lines[0] + "\n"))

    def test_how_deep_a_dynamic_may_be(self):
        deep = lambda n: '{"d":' + "[" * n + "]" * n + "}"
        self.assertEqual(self.load([deep(127)]).status, 0)
        for depth in (128, 5000):
            found = self.load([deep(1), deep(depth)])
            self.assertEqual(found.status, 1)
            self.assertIn("a.json:2:", found.told)

    def test_late_members_stop_or_go_where_it_is_said(self):
        lines = ['{"a":1}'] * 10000 + ['{"a":2,"b":"x","c":null}']
        found = self.load(lines + ['{"a":3}'])
        self.assertIn(".alter-merge table T (Rest:dynamic)", found.blocks)
        self.assertEqual((found.columns, found.rows[9999:]), ("a:long", [["1", ""], ["2", '{"b":"x"}'], ["3", ""]]))
        self.assertIn("they go into Rest. To choose: --rest NAME or --on extra=drop", found.told)
        self.assertEqual([one.what for one in found.sent], ["table", "column", "batch", "batch"])
        self.assertIn("a.json:10001: no column has the field 'b'", self.load(lines, "--on", "extra=stop").told)
        self.assertIn("a.json:10001: no column has the field 'b'", self.load(lines, "--no-table").told)
        self.assertEqual(self.load(lines, "--on", "extra=drop").rows[-1], ["2"])
        rest = self.load(lines, "--rest", "Rest")
        self.assertEqual((rest.columns, rest.rows[-1]), ("a:long, Rest:dynamic", ["2", '{"b":"x"}']))

    def test_types_that_come_late(self):
        found = self.load(['{"a":1}'] * 10000 + ['{"a":"x"}'])
        self.assertIn("a.json:10001: a: 'x' is no long", found.told)

    def test_seconds_since_1970(self):
        found = self.load(['{"ts":1709294400.25}', '{"ts":1709294400}'], "--type", "ts:datetime")
        self.assertEqual(found.rows, [["2024-03-01T12:00:00.25Z"], ["2024-03-01T12:00:00Z"]])

    def test_cells_of_csv_that_are_json(self):
        lines = 'n,d\n1,"{""a"":1}"\n'
        for cell, kind in [
            ('"{""a"":1.5}"', "number"),
            ('"{""a"":-0}"', "number"),
            ('"{""a"""', "json"),
            ('"[9223372036854775808]"', "number"),
            ('"{""a"":NaN}"', "json"),
            ('"[1],[2]"', "json"),
        ]:
            with self.subTest(cell=cell):
                found = loaded(lines + f"2,{cell}\n", "--type", "d:dynamic")
                self.assertEqual(found.status, 1)
                self.assertIn(f"--on {kind}=", found.told)
        kept = loaded(
            lines + '2,"{""a"""\n3,plain\n4,"[9223372036854775807]"\n5,"{""a"":1.5}"\n',
            "--type",
            "d:dynamic",
            "--on",
            "json=text",
            "--on",
            "number=string",
        )
        self.assertEqual(
            [json.loads(row[1]) if row[1] != "plain" else "plain" for row in kept.rows],
            [{"a": 1}, '{"a"', "plain", [9223372036854775807], {"a": "1.5"}],
        )


if __name__ == "__main__":
    unittest.main()
