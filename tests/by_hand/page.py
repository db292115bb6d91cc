#!/usr/bin/env python3
"""Tests the page *Try your rules* in browsers without a window: each command's bytes beside the program's, and the page as a person uses it.

    tests/by_hand/page.py                      in Chromium and Firefox, both modules
    tests/by_hand/page.py --browser firefox    in this one alone
    tests/by_hand/page.py --pictures FOLDER    keeps pictures of the page there

`page/make.py modules`, `page/make.py files` and `page/make.py languages sv zh` make what the page needs before. The commands of page_cases.py run over real lists and over
broken files: status, output, errors and the file that is made are compared with those of crates/uca/out/uca. Then a browser types rules, makes an error, drops a file and
follows a link. It goes through the page by the keyboard, and looks at narrow windows and at dark colours. It needs Debian's chromium, chromium-driver and firefox-esr. The
last line is `N passed, M failed`.
"""
import argparse
import contextlib
import functools
import hashlib
import http.server
import json
import os
import re
import subprocess
import sys
import tempfile
import threading

sys.dont_write_bytecode = True
HERE = os.path.dirname(os.path.realpath(__file__))
TOP = os.path.dirname(os.path.dirname(HERE))
sys.path.insert(0, HERE)
import browsers
import page_cases

NEEDS, WANTS = ["chromium", "chromium-driver", "firefox-esr"], ["unicode-cldr-core"]
MADE, EXAMPLES = f"{TOP}/page/made", f"{TOP}/examples"
TAB, CONTROL, END, ENTER = "\ue004", "\ue009", "\ue010", "\ue007"


class Counts:
    """What passed and what failed."""

    def __init__(self):
        self.passed = self.failed = 0

    def see(self, holds, said):
        self.passed += bool(holds)
        self.failed += not holds
        if not holds:
            print(f"failed: {said}", flush=True)

    def same(self, found, wanted, said):
        self.see(found == wanted, f"{said}: {found}, in place of {wanted}")


# ---- Both sides of a command


def digest(data):
    return hashlib.sha256(data).hexdigest()


def by_program(program, case, folder):
    """What the program does: its status, and sums of its output, its errors and the file that it makes."""
    with tempfile.TemporaryDirectory() as at:
        for name, path in case.files.items():
            os.symlink(os.path.realpath(f"{folder}/{path}"), f"{at}/{name}")
        before = {*os.listdir(at)}
        with open(f"{folder}/{case.input}" if case.input else os.devnull, "rb") as given:
            done = subprocess.run([program, *case.words], cwd=at, stdin=given, stdout=subprocess.PIPE, stderr=subprocess.PIPE, check=False)
        kept = None
        for name in {*os.listdir(at)} - before:
            with open(f"{at}/{name}", "rb") as it:
                kept = digest(it.read())
    return [done.returncode, digest(done.stdout), digest(done.stderr), kept]


# What a page does for the cases from FROM to TO. The module and the files stay for the next ones.
IN_BROWSER = """(async () => {
  const { Uca } = await import("/page/uca.js");
  const fetched = async (path) => new Uint8Array(await (await fetch(path)).arrayBuffer());
  const kept = globalThis.kept ??= { uca: await Uca.load(await fetched("/made/MODULE")), files: new Map() };
  const sum = async (bytes) => [...new Uint8Array(await crypto.subtle.digest("SHA-256", bytes))].map((it) => it.toString(16).padStart(2, "0")).join("");
  const file = async (path) => { if (!kept.files.has(path)) kept.files.set(path, await fetched("/" + path)); return kept.files.get(path); };
  const found = [];
  for (const { words, files, input } of (await (await fetch("/cases.json")).json()).slice(FROM, TO)) {
    const given = {};
    for (const [name, path] of Object.entries(files)) given[name] = await file(path);
    const done = kept.uca.run(words, given, input ? await file(input) : "");
    found.push([done.status, await sum(done.out), await sum(done.err), done.kept ? await sum(done.kept) : null]);
  }
  return found;
})()"""

# Takes all memory of a module, gives some small blocks back, and sorts. Then it has a call stop, and runs another command.
AT_THE_END = """(async () => {
  const { Uca } = await import("/page/uca.js");
  const fetched = async (path) => new Uint8Array(await (await fetch(path)).arrayBuffer());
  const [module, table, data] = await Promise.all(["/made/MODULE", "/made/table.txt", "/made/data.txt"].map(fetched));
  const uca = await Uca.load(module);
  const files = { "table.txt": uca.put(table), "data.txt": uca.put(data) };
  const small = [4, 30, 30, 60, 120, 240].map((size) => uca.take(size)), taken = [];
  for (let size = 2 ** 28; size >= 16; size /= 2) {
    try { while (taken.length < 5000) taken.push(uca.take(size)); } catch (error) { if (!(error instanceof RangeError)) throw error; }
  }
  small.forEach((it) => uca.give_back(it));
  const sort = ["sort", "table.txt", "data.txt"], done = uca.run(sort, files, "b\\na\\n");
  const other = await Uca.load(module), again = other.run(sort, { "table.txt": table, "data.txt": data }, "b\\na\\n");
  other.calls = { ...other.calls, uca_run() { throw new Error("stopped"); } };
  const said = [0, 1].map(() => { try { return other.run(["--version"]).text(); } catch (error) { return error.message; } });
  return { count: taken.length, status: done.status, out: done.text(), err: done.message(), again: again.text(), said };
})()"""


BLANK = '<!doctype html><link rel="icon" href="data:,"><title>blank</title>'


def prepared(program, folder):
    """Puts what the cases need into the folder that is served, and returns the cases."""
    for name, at in (("page", f"{TOP}/page"), ("made", MADE), ("examples", EXAMPLES)):
        os.symlink(at, f"{folder}/{name}")
    texts = {"names": page_cases.names_of_cldr(), "book": page_cases.BOOK, "blank.html": BLANK}
    for name, data in {**page_cases.hostile(), **{name: text.encode() for name, text in texts.items()}}.items():
        with open(f"{folder}/{name}", "wb") as it:
            it.write(data)
    files = ["examples/table.txt", "examples/data.txt"]
    for name, words in page_cases.MADE_BY_PROGRAM.items():
        with open(f"{EXAMPLES}/lines.txt", "rb") as lines, open(f"{folder}/{name}", "wb") as keys:
            subprocess.run([program, *words, *files], cwd=folder, stdin=lines, stdout=keys, check=True)
    fingerprint = subprocess.run([program, "fingerprint", *files], cwd=folder, stdout=subprocess.PIPE, text=True, check=True).stdout.strip()
    cases = [*page_cases.all_cases(fingerprint)]
    with open(f"{folder}/cases.json", "w", encoding="utf-8") as it:
        json.dump([case._asdict() for case in cases], it)
    return cases


class Server(http.server.ThreadingHTTPServer):
    """The files of a folder, as `python3 -m http.server` serves them. `asked` has the path of each request."""

    def __init__(self, folder):
        super().__init__(("127.0.0.1", 0), functools.partial(Handler, directory=folder))
        self.asked, self.address = [], f"http://127.0.0.1:{self.server_address[1]}"

    def handle_error(self, *_):
        """A browser may end a connection before it has read all."""


class Handler(http.server.SimpleHTTPRequestHandler):
    def log_message(self, *_):
        pass

    def do_GET(self):
        self.server.asked.append(self.path)
        super().do_GET()


@contextlib.contextmanager
def served(folder):
    server = Server(folder)
    threading.Thread(target=server.serve_forever, daemon=True).start()
    try:
        yield server
    finally:
        server.shutdown()


AT_ONCE = 20


def compare(browser, address, cases, wanted, counts, module):
    """Runs the commands by a module, some of them at once, and compares."""
    browser.visit(f"{address}/blank.html")
    for begin in range(0, len(cases), AT_ONCE):
        end = min(begin + AT_ONCE, len(cases))
        script = IN_BROWSER.replace("MODULE", module).replace("FROM", str(begin)).replace("TO", str(end))
        for case, native, here in zip(cases[begin:end], wanted[begin:end], browser.evaluate(script), strict=True):
            counts.see(native == here, f"{module}: {case}: the program {native}, the page {here}")


def see_the_end(browser, address, counts, module):
    """Where memory runs out, the status is 4 and there is no output; and a module that stopped is not called again."""
    browser.visit(f"{address}/blank.html")
    found = browser.evaluate(AT_THE_END.replace("MODULE", module))
    counts.see(found["count"] < 5000, f"{module}: memory has no end")
    counts.same((found["status"], found["out"]), (4, ""), f"{module}: status and output out of memory ({found['err']})")
    counts.same(found["again"], "a\nb\n", f"{module}: the order by a new module")
    counts.same(found["said"], ["stopped", "the module stopped in an earlier command"], f"{module}: after a call that stopped")


# ---- The page as a person uses it


def ready(browser, address):
    # another page comes before, so that what follows `#` is read again
    browser.visit(f"{address.partition('/page/')[0]}/blank.html")
    browser.visit(address)
    browser.wait("document.body.dataset.state === 'ready' || document.body.dataset.state === 'failed'")


def settled(browser):
    """Waits until the page has worked on what was changed."""
    browser.evaluate("new Promise((done) => setTimeout(done, 300))")
    browser.wait("document.body.dataset.state === 'ready'")


def text(browser, name):
    return browser.evaluate(f"document.getElementById('{name}').innerText")


def order(browser, name):
    script = f"[...document.querySelectorAll('#{name} button')].map((it) => it.firstChild.data)"
    return browser.evaluate(script)


def click(browser, name):
    browser.evaluate(f"document.getElementById('{name}').click()")


def write(browser, name, content, event="input"):
    script = f"const it = document.getElementById('{name}'); it.value = {json.dumps(content)}; it.dispatchEvent(new Event('{event}', {{ bubbles: true }}))"
    browser.evaluate(f"(() => {{ {script}; }})()")
    settled(browser)


def type_rules(browser, counts):
    """Types a rule with the keyboard, and an error after it."""
    write(browser, "words", "z\nzebra\nöl\nol\n")
    write(browser, "rules", "&z < ")
    counts.see("EmptyText" in text(browser, "verdict") and "Line 1, column 6" in text(browser, "verdict"), f"an empty text: {text(browser, 'verdict')}")
    browser.evaluate("document.getElementById('rules').focus()")
    browser.press_with(CONTROL, END)
    browser.press("ö")
    settled(browser)
    counts.see(text(browser, "verdict").startswith("accepted"), f"the verdict: {text(browser, 'verdict')}")
    counts.same(order(browser, "before"), ["ol", "öl", "z", "zebra"], "the order of the table")
    counts.same(order(browser, "after"), ["ol", "z", "zebra", "öl"], "the order of the rules")
    moved = browser.evaluate("[...document.querySelectorAll('#after .moved button')].map((it) => it.firstChild.data)")
    counts.same(moved, ["öl"], "what moved")
    counts.same(text(browser, "summary"), "4 words: 1 moved, and 1 may move.", "the summary")
    browser.press(" ", "<", "<", "<", "<")
    settled(browser)
    counts.see("Syntax" in text(browser, "verdict") and text(browser, "place-line").startswith("&z < ö"), f"an error: {text(browser, 'verdict')}")
    click(browser, "go")
    place = browser.evaluate("[document.activeElement.id, document.getElementById('rules').selectionStart]")
    counts.same(place, ["rules", 7], "the place of the error")
    write(browser, "rules", "&z < 'ö\n")
    counts.see("Line 1, column 6" in text(browser, "verdict"), f"a quote without an end: {text(browser, 'verdict')}")
    write(browser, "rules", "&a < b\n&z < ab < ö <<< ö\n")
    counts.see("DuplicateTarget" in text(browser, "verdict") and "Line 2, column 17" in text(browser, "verdict"), f"a target twice: {text(browser, 'verdict')}")


def see_keys(browser, counts):
    """Goes to a word by the keyboard, and reads its key. The weights are those of Unicode 15.0.0."""
    write(browser, "rules", "&z < ö")
    browser.evaluate("document.querySelectorAll('#before button')[1].focus()")
    browser.press(ENTER)
    browser.wait("document.getElementById('key-head').textContent === 'The key of öl'")
    head, letters, *others = browser.evaluate("[...document.querySelectorAll('#key tr')].map((it) => [...it.children].map((cell) => cell.textContent))")
    counts.same(head, ["Level", "By the table", "By your rules"], "the head of the key")
    counts.same(letters[:2], ["1: letters", "225E 21EF"], "the first level")
    first, *rest = letters[2].split()
    counts.see(first > "23B3" and rest == ["21EF"], f"the first level by the rules: {letters}")
    wanted = [["2: accents", "0020 002B 0020", "0020 0020"], ["3: case", "0002 0002 0002", "0002 0002"], ["4: spaces and punctuation", "FFFF FFFF FFFF", "FFFF FFFF"]]
    counts.same(others, wanted, "the other levels")
    write(browser, "weighting", "non-ignorable")
    click(browser, "identical")
    settled(browser)
    names = browser.evaluate("[...document.querySelectorAll('#key th[scope=row]')].map((it) => it.textContent)")
    counts.same(names, ["1: letters", "2: accents", "3: case", "4: code points"], "the levels with code points")
    points = browser.evaluate("[...document.querySelectorAll('#key tr')].at(-1).children[1].textContent")
    counts.same(points, "00006F 000308 00006C", "the code points")
    click(browser, "identical")
    write(browser, "weighting", "")


def sort_numbers(browser, address, counts):
    """Numbers are in the order of their values where that is asked for."""
    ready(browser, f"{address}/page/")
    write(browser, "rules", "&z < å")
    write(browser, "words", "a10\na9\n")
    settled(browser)
    counts.same(order(browser, "after"), ["a10", "a9"], "numbers as text")
    click(browser, "numeric")
    settled(browser)
    counts.same(order(browser, "after"), ["a9", "a10"], "numbers by value")
    click(browser, "numeric")


DROP = """(() => {
  const part = document.getElementById("PART"), moved = new DataTransfer();
  moved.items.add(new File([CONTENT], NAME));
  part.dispatchEvent(new DragEvent("drop", { dataTransfer: moved, bubbles: true, cancelable: true }));
})()"""


def drop(browser, part, name, data):
    drop_by(browser, part, name, f"Uint8Array.from({[*data]})")


def drop_by(browser, part, name, content):
    """Drops a file that has what an expression of JavaScript gives."""
    browser.evaluate(DROP.replace("PART", part).replace("NAME", json.dumps(name)).replace("CONTENT", content))
    settled(browser)


def drop_files(browser, counts):
    """Drops a file of rules and some of words, one of them no UTF-8."""
    drop(browser, "rules-part", "my.rules", "&a < z".encode())
    drop(browser, "words-part", "my.txt", "b\nz\na\n".encode())
    counts.same(order(browser, "after"), ["a", "z", "b"], "after a drop")
    drop(browser, "words-part", "<b>odd</b>.txt", b"a\xff\n")
    counts.see("<b>odd</b>.txt is not UTF-8" in text(browser, "words-error"), f"no UTF-8: {text(browser, 'words-error')}")
    counts.same(order(browser, "after"), ["a", "z", "b"], "after a file that is no UTF-8")
    drop(browser, "words-part", "marks.txt", ("b\na" + "\u0301" * 65 + "\n").encode())
    counts.see("LongRun" in text(browser, "words-error") and "line 2" in text(browser, "words-error"), text(browser, "words-error"))
    counts.same((order(browser, "before"), order(browser, "after")), ([], []), "the orders of rejected words")
    write(browser, "rules", "&a < ")
    counts.see("EmptyText" in text(browser, "verdict"), f"rules beside words that are rejected: {text(browser, 'verdict')}")
    for content, said in (("'a\\n'.repeat(100001)", "has more than 100,000 lines"), ("'a'.repeat(20000001)", "has more than 20,000,000 bytes")):
        drop_by(browser, "words-part", "large.txt", content)
        counts.see(f"large.txt {said}" in text(browser, "words-error"), f"a large file: {text(browser, 'words-error')}")


def see_odd_words(browser, counts):
    """Words that look like HTML, that run from right to left, that are empty, or that are many."""
    odd = "<img src=x onerror=alert(1)>"
    write(browser, "words", f"{odd}\n\nשלום\n")
    write(browser, "rules", f"&z < {odd}")
    # an empty key comes first, and Latin letters come before Hebrew ones
    counts.same(order(browser, "before"), ["", odd, "שלום"], "odd words")
    counts.same(browser.evaluate("document.querySelectorAll('main img').length"), 0, "elements of words")
    counts.see(odd in text(browser, "place-line"), f"rules like HTML: {text(browser, 'place-line')}")
    write(browser, "rules", "&z < ö")
    write(browser, "words", "".join(f"w{i:04}\n" for i in range(600)))
    shown = browser.evaluate("[...document.querySelectorAll('#after li')].map((it) => it.textContent)")
    counts.same((len(shown), shown[499], shown[500]), (501, "w0499", "and 100 lines more: save sorted.txt"), "a long list")


def choose_language(browser, counts):
    """Takes the rules of a language, and then the table of one that has no rules. Languages have plain names, each its own."""
    names = browser.evaluate("[...document.querySelectorAll('#language option')].map((it) => it.textContent)")
    counts.see("Swedish" in names and len({*names}) == len(names) and not any(re.search(r"\[|-u-", it) for it in names), f"the names of languages: {names}")
    write(browser, "words", "ö\nz\n")
    write(browser, "language", "sv", "change")
    counts.see("into the field of rules" in text(browser, "language-help"), f"what is said of Swedish: {text(browser, 'language-help')}")
    click(browser, "take-order")
    browser.wait("document.getElementById('rules').value.includes('ö')")
    settled(browser)
    counts.see(text(browser, "verdict").startswith("accepted"), f"the rules of Swedish: {text(browser, 'verdict')}")
    counts.same((order(browser, "before"), order(browser, "after")), (["ö", "z"], ["z", "ö"]), "the orders by the rules of Swedish")
    counts.same(browser.evaluate("document.getElementById('weighting').value"), "non-ignorable", "the weighting of a language")
    write(browser, "table", "made/languages/sv.txt", "change")
    counts.same(order(browser, "before"), ["z", "ö"], "the order by the table of Swedish")
    write(browser, "words", "Łapka\nLutek\n张\n李\nA\n")
    write(browser, "language", "zh", "change")
    counts.see("takes the place of Unicode's" in text(browser, "language-help"), f"what is said of Chinese: {text(browser, 'language-help')}")
    click(browser, "take-order")
    settled(browser)
    # CLDR's rules have [reorder Hani], and by pinyin li comes before zhang; by Unicode's table Han come last, U+5F20 before U+674E
    counts.same(order(browser, "before"), ["李", "张", "A", "Łapka", "Lutek"], "the order of Chinese")
    counts.same(browser.evaluate("document.getElementById('rules').value"), "", "the rules beside the table of Chinese")
    write(browser, "table", "made/table.txt", "change")
    write(browser, "weighting", "")


def follow_link(browser, address, counts):
    """Makes a link, opens it, and finds the same rules and words. A link that is odd opens too."""
    rules, words = "# ü & ü\n&u << 'ü+'\n", "ü+\nuv\n100 % & #\n"
    write(browser, "rules", rules)
    write(browser, "words", words)
    click(browser, "identical")
    click(browser, "copy")
    link = browser.wait("location.hash.length > 1 && location.href")
    settled(browser)
    before = order(browser, "after")
    ready(browser, link)
    state = browser.evaluate("['rules', 'words'].map((id) => document.getElementById(id).value).concat(document.getElementById('identical').checked)")
    counts.same(state, [rules, words, True], "the link")
    counts.same(order(browser, "after"), before, "the order by the link")
    ready(browser, f"{address}/page/#rules=%26z+%3C+o&words=z%0Ao&table=https%3A%2F%2Fexample.org%2Ftable&weighting=odd&upper=1")
    counts.same(order(browser, "after"), ["z", "o"], "the order by an odd link")
    counts.see("a table that is not here" in text(browser, "saved"), f"a table of a link: {text(browser, 'saved')}")


def saved(browser, name):
    """The bytes that a button saves, taken before the browser writes them."""
    script = """(async () => {
      const made = URL.createObjectURL; let kept;
      URL.createObjectURL = (blob) => { kept = blob; return made(blob); };
      document.querySelector('[data-save="NAME"]').click();
      URL.createObjectURL = made;
      return [...new Uint8Array(await kept.arrayBuffer())];
    })()"""
    return bytes(browser.evaluate(script.replace("NAME", name)))


def save_files(browser, program, counts):
    """Saves the files, and has the program judge them."""
    write(browser, "rules", "&z < å <<< Å\n")
    write(browser, "words", "år\nzoo\nÅr\nar\n")
    with tempfile.TemporaryDirectory() as folder:
        for name in ("rules.txt", "tailored.txt", "certificate.txt", "sorted.txt", "words.txt"):
            with open(f"{folder}/{name}", "wb") as it:
                it.write(saved(browser, name))
        for name in ("table.txt", "data.txt"):
            os.symlink(f"{MADE}/{name}", f"{folder}/{name}")
        words = [program, "audit", "table.txt", "data.txt", "rules.txt", "tailored.txt", "certificate.txt"]
        said = subprocess.run(words, cwd=folder, capture_output=True, text=True, check=False).stdout
        counts.same(said, "accepted\n", "the audit of what was saved")
        sort = text(browser, "commands").splitlines()[-1].split(" > ")[0].replace("uca", program, 1)
        said = subprocess.run(sort, shell=True, cwd=folder, capture_output=True, check=False).stdout
        with open(f"{folder}/sorted.txt", "rb") as it:
            counts.same(it.read(), said, "the order that was saved")
        counts.same(said, "ar\nzoo\når\nÅr\n".encode(), "the order by the program")


FOCUSED = """(() => {
  const it = document.activeElement, shown = it.classList.contains("file") ? it.parentElement.querySelector(".button") : it;
  const name = it.id || it.closest("ol")?.id || it.dataset.save || it.className || it.tagName;
  return [name, it === document.body || getComputedStyle(shown).outlineStyle !== "none"];
})()"""
BY_TAB = ["skip", "words", "words-file", "language", "rules", "rules-file", "table", "weighting", "identical", "numeric", "before", "after", "copy", "rules.txt", "table-link"]


def use_keyboard(browser, address, counts):
    """Follows the first link by Enter, to the orders. Then Tab alone goes through the page: what can be used is reached in its order, and the place is seen."""
    browser.open_window()
    ready(browser, f"{address}/page/")
    browser.press(TAB)
    found = browser.evaluate("[document.hasFocus(), document.activeElement.className, document.activeElement.getBoundingClientRect().left]")
    counts.same(found, [True, "skip", 8], "focus, and the first link in the window")
    browser.press(ENTER)
    counts.same(browser.wait("document.activeElement.id"), "orders", "where the first link goes")
    browser.press(TAB)
    counts.same(browser.evaluate(FOCUSED)[0], "before", "what comes after the first link")
    ready(browser, f"{address}/page/")
    reached, unseen = [], []
    for _ in range(100):
        browser.press(TAB)
        name, is_seen = browser.evaluate(FOCUSED)
        if name == "BODY" or name == "HTML" or (name == "skip" and reached):
            break
        reached += [name] * (name not in reached[-1:])
        unseen += [name] * (not is_seen)
    counts.same([it for it in reached if it in BY_TAB], BY_TAB, f"what Tab reaches ({reached})")
    counts.same(unseen, [], "places that are not seen")


def see_layout(browser, counts):
    """Looks at narrow windows, at what is seen of a window of 1280 x 1000, and whether each field has a name."""
    browser.resize(1280, 1000)
    ends = browser.evaluate("['words', 'take-order', 'rules'].map((id) => document.getElementById(id).getBoundingClientRect().bottom + scrollY)")
    counts.see(ends == sorted(ends) and ends[-1] < 1000, f"where words, language and rules end in a window of 1000 lines: {ends}")
    for width in (320, 360, 800):
        browser.resize(width, 740)
        wide = browser.evaluate("document.documentElement.scrollWidth - innerWidth")
        counts.see(wide <= 0, f"a window of {width} columns scrolls sideways by {wide}")
    unnamed = browser.evaluate("[...document.querySelectorAll('textarea, select, input')].filter((it) => !it.labels.length).map((it) => it.id)")
    counts.same(unnamed, [], "fields without a label")
    browser.resize(1180, 1000)


# The least contrast of text and its background that WCAG 2 (1.4.3) asks for, and how it counts it.
LEAST_CONTRAST = 4.5
CONTRASTS = """(() => {
  const numbers = (colour) => colour.match(/[\\d.]+/g).map(Number);
  const part = (it) => (it / 255 <= 0.04045 ? it / 255 / 12.92 : ((it / 255 + 0.055) / 1.055) ** 2.4);
  const light = ([r, g, b]) => 0.2126 * part(r) + 0.7152 * part(g) + 0.0722 * part(b);
  const paper = (it) => { const found = numbers(getComputedStyle(it).backgroundColor); return found[3] === 0 && it.parentElement ? paper(it.parentElement) : found; };
  const contrast = (it) => { const [a, b] = [light(numbers(getComputedStyle(it).color)), light(paper(it))]; return (Math.max(a, b) + 0.05) / (Math.min(a, b) + 0.05); };
  const shown = [...document.querySelectorAll("body *")].filter((it) => it.checkVisibility() && !it.disabled && it.tagName !== "OPTION" && [...it.childNodes].some((part) => part.nodeType === 3 && part.data.trim()));
  return shown.map((it) => [it.tagName + "." + it.className, contrast(it)]);
})()"""


def see_colours(browser, address, is_dark, counts):
    """Whether the page is dark just where the system is, and whether all of its text can be read, errors too."""
    ready(browser, f"{address}/page/#rules=%26z+%3C+%C3%B6+%3C%3C%3C%3C&words=%C3%B6")
    found = browser.evaluate("getComputedStyle(document.body).backgroundColor.match(/\\d+/g).map(Number)")
    counts.see((sum(found) < 3 * 64) == is_dark, f"the background, where dark is {is_dark}: {found}")
    pale = {name: ratio for name, ratio in browser.evaluate(CONTRASTS) if ratio < LEAST_CONTRAST}
    write(browser, "rules", "&z < ö")
    write(browser, "words", "ö\nz\n")
    pale |= {name: ratio for name, ratio in browser.evaluate(CONTRASTS) if ratio < LEAST_CONTRAST}
    counts.same(pale, {}, f"text that is hard to read, where dark is {is_dark}")


def see_requests(server, since, counts):
    """What the page asked for: nothing but its own files, and nothing of what was written."""
    asked = {it for it in server.asked[since:] if it != "/blank.html"}
    strange = sorted(it for it in asked if not re.fullmatch(r"/page/([\w./-]*)(\?module=[\w.]+)?", it))
    counts.same(strange, [], "requests")


def see_other_module(browser, address, counts):
    """The page by the other module, and by none."""
    ready(browser, f"{address}/page/?module=uca32.wasm")
    counts.see("uca32.wasm" in text(browser, "about") and text(browser, "verdict").startswith("accepted"), f"by uca32.wasm: {text(browser, 'about')}")
    ready(browser, f"{address}/page/?module=none.wasm")
    counts.see("The page does not start" in text(browser, "summary") and "none.wasm: 404" in text(browser, "summary"), f"by no module: {text(browser, 'summary')}")


def as_a_person(browser, server, program, counts):
    since, address = len(server.asked), server.address
    ready(browser, f"{address}/page/")
    counts.see(text(browser, "verdict").startswith("accepted"), f"at the start: {text(browser, 'summary')} {text(browser, 'verdict')}")
    counts.see("uca.wasm. uca check says of Unicode's table: well-formed" in text(browser, "about"), text(browser, "about"))
    type_rules(browser, counts)
    see_keys(browser, counts)
    drop_files(browser, counts)
    see_odd_words(browser, counts)
    choose_language(browser, counts)
    save_files(browser, program, counts)
    follow_link(browser, address, counts)
    sort_numbers(browser, address, counts)
    use_keyboard(browser, address, counts)
    see_layout(browser, counts)
    see_other_module(browser, address, counts)
    see_requests(server, since, counts)
    open_as_file(browser, counts)


def open_as_file(browser, counts):
    """Opened as a file, the page says what to do."""
    browser.visit(f"file://{TOP}/page/index.html")
    counts.see("needs a server" in text(browser, "summary"), f"the page as a file: {text(browser, 'summary')}")


def pictures(browser, name, address, folder):
    """Keeps a picture of the page as it begins, one with an error, and one in a narrow window."""
    os.makedirs(folder, exist_ok=True)
    browser.resize(1180, 900)
    ready(browser, f"{address}/page/")
    browser.picture(f"{folder}/{name}.png")
    write(browser, "rules", "# Swedish\n&z < å <<< Å < ä <<<< Ä\n")
    browser.picture(f"{folder}/{name}_error.png")
    browser.resize(400, 900)
    browser.picture(f"{folder}/{name}_narrow.png")
    browser.resize(1180, 900)


# ---- All


def messages_have_sentences(counts):
    """Each kind of error in rules and plans that docs/MESSAGES.md has is one of page/messages.js."""
    with open(f"{TOP}/docs/MESSAGES.md", encoding="utf-8") as it:
        pages = dict(part.split("\n", 1) for part in it.read().split("\n## ")[1:])
    with open(f"{TOP}/page/messages.js", encoding="utf-8") as it:
        sentences = it.read()
    kinds = re.findall(r"(?m)^\| `(\w+)`", pages["Rules"]) + re.findall(r"(?m)^\| `tailor(?: relation N)?: (\w+)", pages["Rules that have no plan"])
    kinds += re.findall(r"(?m)^\| `refused \d+ (\w+)", pages["Verdicts of audit"])
    for kind in kinds:
        counts.see(re.search(rf"(?m)^  {kind}: ", sentences), f"page/messages.js has no sentence for {kind}")


def try_browser(name, folder, server, cases, wanted, options, counts):
    """Does all in one browser, once where the system is light; and looks at the colours where it is dark too."""
    for is_dark in (False, True):
        with browsers.open_browser(name, f"{folder}/.{name}{is_dark}", is_dark) as browser:
            if not is_dark:
                for module in ("uca.wasm", "uca32.wasm"):
                    compare(browser, server.address, cases, wanted, counts, module)
                    see_the_end(browser, server.address, counts, module)
                as_a_person(browser, server, options.uca, counts)
            see_colours(browser, server.address, is_dark, counts)
            if options.pictures:
                pictures(browser, f"{name}{'_dark' * is_dark}", server.address, options.pictures)


def main(options):
    counts = Counts()
    messages_have_sentences(counts)
    with tempfile.TemporaryDirectory(ignore_cleanup_errors=True) as folder, served(folder) as server:
        cases = prepared(options.uca, folder)
        wanted = [by_program(options.uca, case, folder) for case in cases]
        for name in options.browser or ["chromium", "firefox"]:
            try_browser(name, folder, server, cases, wanted, options, counts)
            print(f"{name}: {len(cases)} commands by each module, and the page", flush=True)
    print(f"{counts.passed} passed, {counts.failed} failed")
    return 1 if counts.failed else 0


if __name__ == "__main__":
    parser = argparse.ArgumentParser(description=__doc__.split("\n")[0])
    parser.add_argument("--uca", default=f"{TOP}/crates/uca/out/uca", help="the program")
    parser.add_argument("--browser", action="append", choices=["chromium", "firefox"], help="this browser alone")
    parser.add_argument("--pictures", metavar="FOLDER", help="keeps pictures there")
    given = parser.parse_args()
    lacking = [it for it in ("uca.wasm", "uca32.wasm", "table.txt", "data.txt", "languages/sv.rules", "languages/sv.txt", "languages/zh.txt") if not os.path.exists(f"{MADE}/{it}")]
    if lacking or not os.access(given.uca, os.X_OK):
        print(f"page/made lacks {', '.join(lacking) or 'nothing'}, or there is no program: tools/build.py and page/make.py make them\n0 passed, 1 failed")
        sys.exit(1)
    given.uca = os.path.abspath(given.uca)
    sys.exit(main(given))
