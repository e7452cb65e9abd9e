"""./kq-page over plain sockets: who is let in, and what a page is told."""
import json
import os
import signal
import socket
import subprocess
import tempfile
import time
import unittest

from page_runs import KQ_PAGE, PROGRAM, Refused, Running, why_not

WHY_NOT = why_not()
SLOW = "range a from 1 to 3000 step 1 | extend k = 1 | join kind=inner (range b from 1 to 3000 step 1 | extend k = 1) on k | count"
OUTSIDE = "../../../etc/passwd"
ADDRESSES = ["/", "/page.css", "/main.js", "/parts/codemirror.js", "/socket", "/saved/x"]


@unittest.skipIf(WHY_NOT, WHY_NOT)
class Door(unittest.TestCase):
    """Who is let in."""

    @classmethod
    def setUpClass(cls):
        cls.page = Running()
        cls.addClassCleanup(cls.page.close)
        cls.cookie, cls.key = cls.page.enter()

    def status(self, path="/", headers=(), **given):
        return self.page.request(path, headers=[("Cookie", self.cookie), *headers], **given)[0]

    def test_the_cookie_opens_the_page(self):
        self.assertEqual(self.status(), 200)

    def test_without_the_token_no_address_gives_anything(self):
        for path in ADDRESSES:
            self.assertEqual(self.page.request(path)[0], 403, path)

    def test_a_wrong_token_is_refused_and_sets_no_cookie(self):
        for token in ("", "x", "%c3%a9", "%ff", self.page.address[-10:], self.key):
            status, headers, _ = self.page.request(f"/?token={token}")
            self.assertEqual(status, 403, token)
            self.assertNotIn("Set-Cookie", headers)

    def test_a_wrong_cookie_is_refused(self):
        name = self.cookie.partition("=")[0]
        for cookie in (f"{name}=", f"{name}=x", f"x={self.cookie.partition('=')[2]}", f"{name}={self.key}"):
            self.assertEqual(self.page.request("/", headers=[("Cookie", cookie)])[0], 403, cookie)

    def test_the_token_becomes_a_cookie_that_scripts_and_other_sites_dont_get(self):
        status, headers, _ = self.page.request(self.page.address.removeprefix(f"http://{self.page.host}"))
        self.assertEqual(status, 303)
        self.assertIn("HttpOnly", headers["Set-Cookie"])
        self.assertIn("SameSite=Strict", headers["Set-Cookie"])
        self.assertNotIn("token", headers["Location"])

    def test_another_host_is_refused(self):
        port = self.page.port
        for host in (f"evil.example:{port}", f"localhost:{port}", "127.0.0.1", f"127.0.0.1:{port}.evil.example", f"127.0.0.1:{port + 1}", ""):
            self.assertEqual(self.status(host=host or " "), 403, host)
        self.assertIn(self.page.request("/", headers=[("Host", "evil.example"), ("Cookie", self.cookie)])[0], (400, 403))

    def test_another_origin_is_refused(self):
        for origin in ("http://evil.example", f"http://127.0.0.1:{self.page.port + 1}", "null", f"https://{self.page.host}", f"http://localhost:{self.page.port}", ""):
            for path in ADDRESSES:
                self.assertEqual(self.status(path, [("Origin", origin)]), 403, (origin, path))

    def test_what_a_browser_says_another_page_asked_is_refused(self):
        for site in ("cross-site", "same-site"):
            for path in ADDRESSES:
                self.assertEqual(self.status(path, [("Sec-Fetch-Site", site)]), 403, (site, path))

    def test_a_form_that_is_posted_is_refused_even_with_the_cookie(self):
        form = [("Content-Type", "application/x-www-form-urlencoded"), ("Content-Length", "3")]
        for path in ADDRESSES:
            self.assertEqual(self.status(path, [*form, ("Origin", "http://127.0.0.1:1")], method="POST", body=b"a=b"), 403, path)
            self.assertIn(self.status(path, [*form, ("Origin", f"http://{self.page.host}")], method="POST", body=b"a=b"), (404, 405), path)
        for method in ("PUT", "DELETE", "OPTIONS", "HEAD", "PATCH", "TRACE"):
            self.assertIn(self.status(method=method), (404, 405), method)

    def test_a_socket_of_another_page_is_refused(self):
        for headers in ({"Origin": f"http://127.0.0.1:{self.page.port + 1}"}, {"Origin": "http://evil.example"}, {"Origin": None}, {"Origin": "null"}, {"Cookie": None}, {"Host": "evil.example"}):
            with self.assertRaises(Refused, msg=headers):
                self.page.socket(**headers)

    def test_a_socket_without_the_key_is_closed_whatever_cookie_it_brings(self):
        for first in ("{}", "[]", "x", '{"key":7}', json.dumps({"key": "x"}), json.dumps({"number": 1, "call": "history"})):
            with self.page.socket() as found:
                found.put(first)
                self.assertEqual(found.get(), 4403, first)

    def test_a_path_outside_gives_nothing(self):
        turns = [OUTSIDE, OUTSIDE.replace("/", "%2f"), OUTSIDE.replace(".", "%2e"), OUTSIDE.replace("/", "\\"), "..%00/x", "/etc/passwd", "%2e%2e%2f" * 6 + "etc/passwd", "....//....//etc/passwd"]
        for path in ("/", "/parts/", "/saved/", "/socket/", "/main.js/", "/page.css/"):
            for turn in turns:
                status, _, body = self.page.request(path + turn, headers=[("Cookie", self.cookie)])
                self.assertIn(status, (400, 404), path + turn)
                self.assertNotIn(b"root:", body)

    def test_a_body_over_16_mib_is_refused(self):
        self.assertEqual(self.status(headers=[("Content-Length", str(2**24 + 1))], method="POST"), 413)
        with self.page.socket() as found:
            found.hello()
            try:
                found.put("x" * (2**24 + 1))
                while isinstance(closed := found.get(), dict):
                    self.assertIn("event", closed)
            except (ConnectionError, ValueError):
                # The server had closed it before all was sent.
                closed = 1009
            self.assertEqual(closed, 1009)

    def test_each_response_has_the_policy_that_allows_our_own_scripts_alone(self):
        for path, cookie in (("/", True), ("/main.js", True), ("/nothing", True), ("/", False), ("/saved/x", True)):
            _, headers, _ = self.page.request(path, headers=[("Cookie", self.cookie)] if cookie else [])
            policy = headers["Content-Security-Policy"]
            for part in ("default-src 'none'", "script-src 'self';", "style-src 'self';", "form-action 'none'", "frame-ancestors 'none'", "base-uri 'none'", "require-trusted-types-for 'script'"):
                self.assertIn(part, policy, path)
            self.assertNotIn("unsafe", policy)
            self.assertEqual((headers["X-Content-Type-Options"], headers["Cache-Control"], headers["Referrer-Policy"]), ("nosniff", "no-store", "no-referrer"))

    def test_only_this_machines_own_address_is_listened_at(self):
        for place in ("127.0.0.2", "::1"):
            with self.assertRaises(OSError):
                socket.create_connection((place, self.page.port), timeout=5).close()

    def test_a_file_is_given_once_and_only_to_who_asked(self):
        with self.page.socket() as found:
            found.loaded()
            answer = found.ask("Log | count")["answer"]
            path = found.call("save", answer=answer, arrangement={}, form="csv")["path"]
            self.assertEqual(self.page.request(path)[0], 403)
            status, headers, body = self.page.request(path, headers=[("Cookie", self.cookie)])
            self.assertEqual((status, body), (200, b"Count\r\n2359\r\n"))
            self.assertIn("attachment", headers["Content-Disposition"])
            self.assertEqual(self.status(path), 404)


@unittest.skipIf(WHY_NOT, WHY_NOT)
class Pages(unittest.TestCase):
    """What a page that was let in is told."""

    def open(self, *files, **given):
        page = Running(*files, **given)
        self.addCleanup(page.close)
        found = page.socket()
        self.addCleanup(found.close)
        return page, found

    def test_calls_of_no_page_of_ours_are_told_and_change_nothing(self):
        _, found = self.open()
        found.loaded()
        for text in ("[]", "x", '{"call":"begin"}', '{"call":"__init__"}', '{"call":"ask","with":7}', '{"call":"ask","with":{"text":1}}', '{"call":"rows","with":{"answer":99}}'):
            found.put(text)
            while "error" not in (message := found.get()):
                self.assertIn("event", message)
        with self.assertRaises(ValueError):
            found.ask("Log | count\n\nLog | count")
        answer = found.ask("Log | count")
        self.assertEqual(found.call("rows", answer=answer["answer"], arrangement={}, first=0, count=5), {"total": 1, "rows": [[0, ["2359"]]]})
        for given in ({"sort": 7}, {"sort": "x"}, {"filters": {"3": "x"}}, {"filters": {"0": 1}}, {"filters": {"x": "1"}}, []):
            with self.assertRaises(ValueError):
                found.call("rows", answer=answer["answer"], arrangement=given, first=0, count=5)

    def test_two_pages_see_the_same_tables(self):
        page, one = self.open()
        one.loaded()
        with page.socket() as two:
            two.hello()
            self.assertEqual(one.ask(".create table Hosts (Host:string)")["kind"], "told")
            for found in (one, two):
                news = found.until(lambda it: it["event"] == "catalogue" and len(it["catalogue"]["tables"]) == 2)
                self.assertEqual([(it["name"], it["rows"]) for it in news["catalogue"]["tables"]], [("Log", 2359), ("Hosts", 0)])

    def test_a_question_is_answered_while_files_are_loaded(self):
        with tempfile.TemporaryDirectory() as folder:
            path = os.path.join(folder, "a.csv")
            os.mkfifo(path)
            page, found = self.open(path)
            self.assertFalse(found.hello()["loading"]["done"])
            with open(path, "w") as file:
                file.write("n,s\n" + "".join(f"{n},x\n" for n in range(60_000)))
                file.flush()
                found.until(lambda it: it["event"] == "state" and it["loading"]["rows"] >= 10_000)
                answer = found.ask("Log | count")
                count = int(found.call("rows", answer=answer["answer"], arrangement={}, first=0, count=1)["rows"][0][1][0])
                self.assertTrue(10_000 <= count <= 60_000, count)
            news = found.until(lambda it: it["event"] == "state" and it["loading"]["done"])
            self.assertEqual((news["loading"]["rows"], news["loading"]["failed"]), (60_000, False))

    def test_a_loading_that_stops_is_told_with_its_reason(self):
        with tempfile.TemporaryDirectory() as folder:
            path = os.path.join(folder, "a.csv")
            with open(path, "w") as file:
                file.write('n,s\n1,x\n2,"y\n')
            _, found = self.open(path)
            loading = found.loaded()["loading"]
            self.assertTrue(loading["failed"])
            self.assertIn("a.csv:3", " ".join(loading["told"]))

    def test_a_question_can_be_left_while_it_runs_and_while_it_waits(self):
        _, found = self.open()
        found.loaded()
        runs = found.begin("ask", text=SLOW, asked=1)
        found.until(lambda it: it["event"] == "state" and it["engine"]["busy"] == SLOW[:200])
        waits = found.begin("ask", text="Log | count", asked=2)
        found.call("leave", asked=2)
        self.assertEqual(found.result(waits)["result"]["runs"], False)
        began = time.monotonic()
        found.call("leave", asked=1)
        self.assertEqual(found.result(runs)["result"]["runs"], True)
        self.assertLess(time.monotonic() - began, 1)
        self.assertEqual(found.ask("Log | count")["rows"], 1)

    def test_an_export_asks_first(self):
        page, found = self.open()
        found.loaded()
        self.assertEqual(found.ask("#export All over Log { Log }")["first"], "exporting")
        self.assertEqual(found.ask("#export All")["kind"], "confirm")
        self.assertEqual(found.ask("// Now.\n# // note\n export All", confirmed="yes")["kind"], "confirm")
        self.assertRegex(found.ask("#export All", confirmed=True)["first"], "exported")

    def test_the_programs_end_is_told_with_its_reason_and_all_is_loaded_anew(self):
        page, found = self.open()
        found.loaded()
        self.assertFalse(found.call("again")["begun"])
        runs = found.begin("ask", text=SLOW, asked=1)
        found.until(lambda it: it["event"] == "state" and it["engine"]["busy"])
        os.kill(page.program_of(), signal.SIGKILL)
        self.assertIn("SIGKILL", found.result(runs)["result"]["first"])
        self.assertIn("SIGKILL", found.ask("Log | count")["first"])
        self.assertTrue(found.call("again")["begun"])
        found.until(lambda it: it["event"] == "state" and it["loading"]["done"] and not it["engine"]["ended"])
        answer = found.ask("Log | count")
        self.assertEqual(found.call("rows", answer=answer["answer"], arrangement={}, first=0, count=1)["rows"], [[0, ["2359"]]])

    def test_an_idle_program_that_is_ended_is_noticed(self):
        page, found = self.open()
        found.loaded()
        os.kill(page.program_of(), signal.SIGTERM)
        news = found.until(lambda it: it["event"] == "state" and it["engine"]["ended"])
        self.assertIn("SIGTERM", news["engine"]["ended"])

    def test_a_script_runs_before_the_files(self):
        with tempfile.TemporaryDirectory() as folder:
            path = os.path.join(folder, "first.kql")
            with open(path, "w") as file:
                file.write("// Hosts.\n\n.create table Hosts (Host:string)\n\n.create tabel\n")
            _, found = self.open(words=["--first", path])
            loading = found.loaded()["loading"]
            self.assertIn("refused", " ".join(loading["told"]))
            self.assertEqual(found.ask("Hosts | count")["rows"], 1)

    def test_the_history_is_kept_for_the_next_page(self):
        page, found = self.open()
        found.loaded()
        found.ask("Log | count")
        found.ask("Log | where Staus >= 500")
        with page.socket() as other:
            other.hello()
            entries = other.call("history")
        self.assertEqual([one["text"] for one in entries], ["Log | where Staus >= 500", "Log | count"])
        self.assertTrue(entries[0]["reply"].startswith("refused Unknown at 12"))

    def test_nothing_is_left_when_it_ends(self):
        page, found = self.open()
        found.loaded()
        program = page.program_of()
        found.begin("ask", text=SLOW, asked=1)
        page.close()
        self.assertEqual(page.status, 0)
        self.assertFalse(os.path.exists(f"/proc/{program}"))


class Words(unittest.TestCase):
    def run_page(self, *words, **environment):
        return subprocess.run([KQ_PAGE, *words], stdout=subprocess.PIPE, stderr=subprocess.PIPE, text=True, timeout=60, env={**os.environ, **environment})

    def test_words_that_dont_fit_are_told(self):
        for words in ((), ("-",), ("a.csv", "--print-schema"), ("a.csv", "--first", "/nowhere"), ("a.csv", "--batch", "0")):
            self.assertEqual(self.run_page(*words).returncode, 2, words)

    def test_without_the_server_one_line_says_what_to_install(self):
        with tempfile.TemporaryDirectory() as folder:
            with open(os.path.join(folder, "aiohttp.py"), "w") as file:
                file.write("raise ImportError\n")
            found = self.run_page("a.csv", "--program", PROGRAM, PYTHONPATH=folder)
        self.assertEqual((found.returncode, found.stdout), (1, ""))
        self.assertRegex(found.stderr, r"\Akq-page: .*apt-get install python3-aiohttp.*\n\Z")


if __name__ == "__main__":
    unittest.main()
