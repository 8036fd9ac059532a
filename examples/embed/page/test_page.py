"""Tests of the page, for unittest or pytest: the server by its calls, and the page in Chromium without a window, by the
protocol of its developer tools. What is in Chromium is skipped where there is none, or where it does not start."""
import base64
import contextlib
import http.client
import json
import os
import re
import shutil
import socket
import struct
import subprocess
import sys
import tempfile
import threading
import time
import unittest

HERE = os.path.dirname(os.path.abspath(__file__))
CHROMIUM = next(filter(None, map(shutil.which, ("chromium", "chromium-browser", "google-chrome"))), None)
HAS_LIBRARY = "TREEDOC_LIBRARY" in os.environ
PATIENCE = 120  # seconds: a busy machine is slow


@contextlib.contextmanager
def served(editors):
    """The port of a server that serves so many editors."""
    words = [sys.executable, os.path.join(HERE, "serve"), "--port", "0", "--editors", str(editors)]
    with subprocess.Popen(words, stdout=subprocess.PIPE, text=True) as server:
        try:
            yield int(re.search(r":(\d+)/", server.stdout.readline())[1])
        finally:
            server.terminate()


def asked(port, method, path, fields=None, **headers):
    """The status and the body of an answer of the server."""
    link = http.client.HTTPConnection("127.0.0.1", port, timeout=PATIENCE)
    body = None if fields is None else json.dumps(fields)
    link.request(method, path, body, {"Content-Type": "application/json", **headers})
    answer = link.getresponse()
    text = answer.read().decode()
    link.close()
    return answer.status, json.loads(text) if answer.headers.get_content_type() == "application/json" else text


class Socket:
    """The client's end of a WebSocket (RFC 6455), as much of it as the developer tools use."""

    def __init__(self, port, path):
        self.link = socket.create_connection(("127.0.0.1", port), PATIENCE)
        self.stream = self.link.makefile("rb")
        key = base64.b64encode(os.urandom(16)).decode()
        lines = (f"GET {path} HTTP/1.1", f"Host: 127.0.0.1:{port}", "Upgrade: websocket", "Connection: Upgrade",
                 f"Sec-WebSocket-Key: {key}", "Sec-WebSocket-Version: 13", "", "")
        self.link.sendall("\r\n".join(lines).encode())
        if b" 101 " not in self.stream.readline():
            raise ConnectionError("the developer tools refuse the socket")
        while self.stream.readline() != b"\r\n":
            pass

    def send(self, text):
        data, mask = text.encode(), os.urandom(4)
        size = len(data)
        head = struct.pack("!BB", 0x81, 0x80 | size) if size < 126 else (
            struct.pack("!BBH", 0x81, 0xFE, size) if size < 65536 else struct.pack("!BBQ", 0x81, 0xFF, size))
        self.link.sendall(head + mask + bytes(it ^ mask[i % 4] for i, it in enumerate(data)))

    def receive(self):
        whole, is_last = b"", False
        while not is_last:
            first, size = self.stream.read(2)
            if size >= 126:
                size = int.from_bytes(self.stream.read(2 if size == 126 else 8), "big")
            data = self.stream.read(size)
            if first & 0x0F in (0, 1):
                whole, is_last = whole + data, bool(first & 0x80)
        return whole.decode()

    def close(self):
        self.stream.close()
        self.link.close()


class Tab:
    """A window of the browser, of one person."""

    def __init__(self, port, page):
        link = http.client.HTTPConnection("127.0.0.1", port, timeout=PATIENCE)
        link.request("PUT", f"/json/new?{page}")
        self.socket = Socket(port, re.search(r"(/devtools/page/\w+)", link.getresponse().read().decode())[1])
        link.close()
        self.number = 0
        # each window believes that it is the one in front
        self.do("Emulation.setFocusEmulationEnabled", enabled=True)

    def do(self, method, **fields):
        self.number += 1
        self.socket.send(json.dumps({"id": self.number, "method": method, "params": fields}))
        while True:
            told = json.loads(self.socket.receive())
            if told.get("id") == self.number:
                if "error" in told:
                    raise RuntimeError(f"{method}: {told['error']}")
                return told["result"]

    def value(self, expression):
        found = self.do("Runtime.evaluate", expression=expression, returnByValue=True, awaitPromise=True)
        if "exceptionDetails" in found:
            raise RuntimeError(f"{expression}: {found['exceptionDetails']}")
        return found["result"].get("value")

    def key(self, key, text=None, code=0, modifiers=0):
        fields = {"key": key, "windowsVirtualKeyCode": code, "modifiers": modifiers}
        self.do("Input.dispatchKeyEvent", type="keyDown", **fields, **({"text": text} if text else {}))
        self.do("Input.dispatchKeyEvent", type="keyUp", **fields)

    def type(self, text):
        for letter in text:
            if letter == "\n":
                self.key("Enter", "\r", 13)
            elif letter == "\b":
                self.key("Backspace", None, 8)
            else:
                self.key(letter, letter)

    def go(self, site, place=None):
        """Puts the caret into the text of an editor, at a place or at the end."""
        where = "it.value.length" if place is None else place
        self.value(f"(() => {{ const it = text{site}; it.focus(); it.setSelectionRange({where}, {where}); }})()")

    def click(self, selector):
        self.value(f"document.querySelector({json.dumps(selector)}).click()")

    def text(self, site):
        return self.value(f"text{site}.value")

    def until(self, expression):
        """Waits until this is so."""
        end = time.monotonic() + PATIENCE
        while not self.value(expression):
            if time.monotonic() > end:
                raise AssertionError(f"it is never so: {expression}\n{self.value('document.body.innerText')}")
            time.sleep(0.05)

    def until_sent(self):
        self.until("[...editors.values()].every((it) => !it.flight && it.draft.cells.every((cell) => cell.isKnown))")


def one_text(*tabs):
    """The text, once all that was typed in these windows is in all editors of them all."""
    for tab in tabs:
        tab.until_sent()
    # a window that asked for the news from now on has been told of what was sent
    for tab in tabs:
        tab.value("(async () => { const told = await ask('news', { run: null, revision: null, versions: {} });"
                  " window.wanted = told.editors.map((it) => it.version); })()")
        tab.until("[...editors.values()].every((it, i) => it.version >= wanted[i] && it.area.value === text1.value"
                  " && it.state.toCome + it.state.toGo === 0)")
    texts = {tab.text(1) for tab in tabs}
    assert len(texts) == 1, texts
    return texts.pop()


def first_line(path):
    """The first line of a file, or None where it has none yet."""
    with contextlib.suppress(OSError), open(path, encoding="ascii") as it:
        line = it.readline()
        return line if line.endswith("\n") else None


@contextlib.contextmanager
def browser():
    """The port of the developer tools of a browser that has no window."""
    with tempfile.TemporaryDirectory(ignore_cleanup_errors=True) as folder:
        words = [CHROMIUM, "--headless=new", "--no-sandbox", "--no-first-run", "--disable-gpu",
                 "--disable-dev-shm-usage", "--disable-background-timer-throttling", "--disable-renderer-backgrounding",
                 "--disable-backgrounding-occluded-windows", "--remote-debugging-port=0", f"--user-data-dir={folder}"]
        with subprocess.Popen([*words, "about:blank"], stdout=subprocess.DEVNULL, stderr=subprocess.DEVNULL) as process:
            try:
                end = time.monotonic() + PATIENCE
                while (port := first_line(os.path.join(folder, "DevToolsActivePort"))) is None:
                    if process.poll() is not None or time.monotonic() > end:
                        raise unittest.SkipTest("Chromium does not start here: the page is not tried in it")
                    time.sleep(0.05)
                yield int(port)
            finally:
                process.terminate()


@unittest.skipUnless(HAS_LIBRARY, "TREEDOC_LIBRARY names no library: the page is not tried")
class Serving(unittest.TestCase):
    def setUp(self):
        stack = contextlib.ExitStack()
        self.addCleanup(stack.close)
        self.port = stack.enter_context(served(2))

    def news(self, run=None, revision=None, versions=()):
        return asked(self.port, "POST", "/news", {"run": run, "revision": revision, "versions": dict(versions)})[1]

    def test_what_one_writes_comes_to_the_other(self):
        begun = self.news()
        self.assertEqual([it["text"] for it in begun["editors"]], ["", ""])
        wrote = {"run": begun["run"], "site": 1, "version": 0, "steps": [[0, 0, "tea"]], "by": "me.1"}
        status, answer = asked(self.port, "POST", "/write", wrote)
        self.assertEqual((status, answer), (200, {
            "status": "MADE", "from": 0, "version": 1, "changes": [[0, 0, "tea", "me.1"]]}))
        self.assertEqual(asked(self.port, "POST", "/write", wrote)[1]["status"], "STALE")
        told = begun
        while told["editors"][1]["version"] == 0:
            told = self.news(begun["run"], told["revision"], {"1": 1, "2": 0})
        self.assertEqual(told["editors"][1]["changes"], [[0, 0, "tea", None]])
        tree = asked(self.port, "POST", "/tree", {"site": 2})[1]
        self.assertEqual([it["line"] for it in tree["drawn"]], [
            '1.1 1.1+1 left "t"', '1.1+1 root "e"', '1.1+2 1.1+1 right "a"'])

    def test_only_its_own_page_is_answered(self):
        self.assertEqual(asked(self.port, "GET", "/")[0], 200)
        self.assertEqual(asked(self.port, "GET", "/desk.py")[0], 404)
        self.assertEqual(asked(self.port, "GET", "/", Host="somewhere.example")[0], 403)
        for headers in ({"Host": "somewhere.example"}, {"Origin": "http://somewhere.example"},
                        {"Content-Type": "text/plain"}):
            self.assertEqual(asked(self.port, "POST", "/flatten", {"site": 1}, **headers)[0], 403)
        for path, fields in (("/flatten", {"site": 3}), ("/flatten", {}), ("/write", [1]), ("/tree", {"site": [1]})):
            self.assertEqual(asked(self.port, "POST", path, fields)[0], 400)
        self.assertEqual(asked(self.port, "POST", "/close", {})[0], 404)
        run = self.news()["run"]
        wrote = {"run": run, "site": 1, "version": 0, "steps": [[1, 0, "x"]], "by": "me.1"}
        self.assertEqual(asked(self.port, "POST", "/write", wrote)[0], 400)
        with self.assertRaises(OSError):
            socket.create_connection(("127.0.0.2", self.port), PATIENCE).close()


@unittest.skipUnless(HAS_LIBRARY, "TREEDOC_LIBRARY names no library: the page is not tried")
@unittest.skipUnless(CHROMIUM, "there is no Chromium: the page is not tried in it")
class Writing(unittest.TestCase):
    @classmethod
    def setUpClass(cls):
        cls.stack = contextlib.ExitStack()
        cls.addClassCleanup(cls.stack.close)
        cls.tools = cls.stack.enter_context(browser())

    def windows(self, editors, count):
        stack = contextlib.ExitStack()
        self.addCleanup(stack.close)
        port = stack.enter_context(served(editors))
        tabs = [Tab(self.tools, f"http://127.0.0.1:{port}/") for _ in range(count)]
        for tab in tabs:
            stack.callback(tab.socket.close)
            tab.until("document.readyState === 'complete' && location.protocol === 'http:'"
                      f" && editors.size === {editors} && [...editors.values()].every((it) => it.version !== null)")
        return tabs

    def test_two_type_at_once_and_one_is_cut_off_and_comes_back(self):
        ann, bob = self.windows(2, 2)

        def at_once(one, other):
            faults = []

            def typing(tab, text):
                try:
                    tab.type(text)
                except Exception as fault:
                    faults.append(fault)
            threads = [threading.Thread(target=typing, args=it) for it in ((ann, one), (bob, other))]
            for it in threads:
                it.start()
            for it in threads:
                it.join()
            self.assertEqual(faults, [])

        ann.go(1)
        ann.type("here: \nthere: ")
        bob.until("text2.value === 'here: \\nthere: '")
        # both write at once, each at a place of its own: no letter is lost, and none goes astray
        ann.go(1, 6)
        bob.go(2)
        at_once("the quick brown fox", "jumps over\nthe lazy dog")
        whole = "here: the quick brown fox\nthere: jumps over\nthe lazy dog"
        self.assertEqual(one_text(ann, bob), whole)
        # and in one place
        ann.go(1)
        bob.go(2)
        at_once("12345678901234567890", "abcdefghijklmnopqrst")
        one = one_text(ann, bob)
        added = one[len(whole):]
        self.assertEqual("".join(filter(str.isdigit, added)), "12345678901234567890")
        self.assertEqual("".join(filter(str.isalpha, added)), "abcdefghijklmnopqrst")
        # one is cut off: each sees what it writes alone
        bob.click("#joined2")
        ann.until("document.querySelector('#joined2').checked === false")
        ann.go(1, 0)
        bob.go(2)
        at_once("One. ", "\b\b\b!")
        ann.until_sent()
        bob.until_sent()
        self.assertEqual((ann.text(1), bob.text(2)), ("One. " + one, one[:-3] + "!"))
        ann.until("editors.get(2).state.toGo > 0 && editors.get(2).state.toCome > 0")
        ann.until("same.textContent === 'The texts differ: 1 editor is cut off.'")
        # it comes back
        bob.click("#joined2")
        self.assertEqual(one_text(ann, bob), "One. " + one[:-3] + "!")
        ann.until("same.textContent === 'All 2 editors show the same text.'")

    def test_no_letter_is_lost_in_a_draft(self):
        [ann] = self.windows(2, 1)
        with open(os.path.join(HERE, "test_drafts.js"), encoding="utf-8") as it:
            self.assertGreater(ann.value(it.read()), 5000)

    def test_a_caret_stays_at_its_letter(self):
        ann, bob = self.windows(2, 2)
        ann.go(1)
        ann.type("milk")
        bob.until("text2.value === 'milk'")
        ann.go(1, 2)
        bob.go(2, 0)
        bob.type("tea ")
        ann.until("text1.value === 'tea milk'")
        self.assertEqual(ann.value("[text1.selectionStart, text1.selectionEnd]"), [6, 6])
        bob.go(2, 6)
        bob.type("X")
        ann.until("text1.value === 'tea miXlk'")
        ann.type("Y")
        self.assertEqual(one_text(ann), "tea miYXlk")
        ann.value("text1.setSelectionRange(4, 8, 'backward')")
        bob.go(2, 4)
        bob.type("<")
        ann.until("text1.value.includes('<')")
        self.assertEqual(ann.value("[text1.selectionStart, text1.selectionEnd, text1.selectionDirection]"),
                         [5, 9, "backward"])

    def test_what_is_composed_is_left_alone(self):
        ann, bob = self.windows(2, 2)
        ann.go(1)
        ann.do("Input.imeSetComposition", text="n", selectionStart=1, selectionEnd=1)
        bob.go(2)
        bob.type("abc")
        ann.until("text2.value === 'abc'")
        ann.do("Input.imeSetComposition", text="\u306b", selectionStart=1, selectionEnd=1)
        bob.type("d")
        ann.until("text2.value === 'abcd'")
        self.assertEqual((ann.text(1), bob.text(1)), ("\u306b", "abcd"))
        ann.do("Input.insertText", text="\u306b\u3088")
        self.assertEqual(one_text(ann, bob), "\u306b\u3088abcd")

    def test_letters_of_many_bytes_are_taken_whole(self):
        [ann] = self.windows(2, 1)
        ann.go(1)
        family = "\U0001f468\u200d\U0001f469\u200d\U0001f467"
        ann.do("Input.insertText", text=f"e\u0301 {family}\U0001f600.")
        self.assertEqual(one_text(ann), f"e\u0301 {family}\U0001f600.")
        self.assertEqual(ann.value("editors.get(2).state.live"), 5)
        # one face for another, of which each has the same first half
        ann.value(f"text1.setSelectionRange({len('e  ') + 8}, {len('e  ') + 10})")
        ann.do("Input.insertText", text="\U0001f601")
        self.assertEqual(one_text(ann), f"e\u0301 {family}\U0001f601.")
        # a part of a letter goes, by a program
        ann.value("text2.value = text2.value.replace('\\u0301', ''); text2.dispatchEvent(new Event('input'))")
        self.assertEqual(one_text(ann), f"e {family}\U0001f601.")

    def test_a_flatten_waits_for_who_is_cut_off(self):
        [ann] = self.windows(3, 1)
        ann.value("window.drawn = (what) => document.querySelectorAll(`#drawing ${what}`).length; 0")
        ann.go(1)
        ann.type("abcdefgh")
        self.assertEqual(one_text(ann), "abcdefgh")
        ann.type("\b\b")
        self.assertEqual(one_text(ann), "abcdef")
        ann.until("drawn('circle') === 8 && drawn('.dead') === 2")
        ann.click("#joined3")
        ann.until("!joined3.checked && editors.get(3).state.joined === false")
        ann.click("article:nth-of-type(1) .flatten")
        ann.until("editors.get(1).state.holds === 1 && editors.get(2).state.holds === 1")
        ann.go(2, 3)
        ann.type("XY")
        self.assertEqual((ann.text(2), ann.text(1)), ("abcXYdef", "abcdef"))
        # who is cut off comes back: the tree is flat, and what was typed meanwhile is written
        ann.click("#joined3")
        self.assertEqual(one_text(ann), "abcXYdef")
        ann.until("drawn('circle') === 8 && drawn('.dead') === 0")
        # one that is given up
        ann.click("#joined3")
        ann.until("!joined3.checked && editors.get(3).state.joined === false")
        ann.click("article:nth-of-type(2) .flatten")
        ann.until("!document.querySelector('article:nth-of-type(2) .cancel').disabled")
        ann.go(1)
        ann.type("Z")
        ann.click("article:nth-of-type(2) .cancel")
        ann.until("text2.value === 'abcXYdefZ' && editors.get(1).state.holds === 0")
        ann.click("#joined3")
        self.assertEqual(one_text(ann), "abcXYdefZ")


if __name__ == "__main__":
    unittest.main()
