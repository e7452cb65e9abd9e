"""Runs page_browser.py, the tests of the page in a browser, where one is installed."""
import os
import subprocess
import unittest

from page_runs import TOP, python_with, why_not

CHROMIUM = {"chromium": "/usr/bin/chromium", "chromium-driver": "/usr/bin/chromedriver"}


def missing():
    """Why there is no browser to test with, as a sentence; or none."""
    absent = [package for package, path in CHROMIUM.items() if not os.access(path, os.X_OK)]
    absent += [] if python_with("selenium") else ["python3-selenium"]
    return f"the page isn't tested in a browser without {' '.join(absent)}" if absent else why_not()


class InABrowser(unittest.TestCase):
    def test_the_page_does_what_its_users_expect(self):
        why = missing()
        if why:
            self.skipTest(why)
        call = [python_with("selenium"), "-m", "unittest", "page_browser"]
        found = subprocess.run(call, cwd=os.path.join(TOP, "tools", "tests"), stdout=subprocess.PIPE, stderr=subprocess.STDOUT, text=True)
        self.assertEqual(found.returncode, 0, found.stdout)


if __name__ == "__main__":
    unittest.main()
