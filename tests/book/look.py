"""Reads the book in a real browser: clicks from the front page to a wrong program, and looks at what the pages do.

look.py [FOLDER]: the pictures of what was seen go into the folder, if one is given."""

import json
import os
import sys

from browser import Browser

ROOT = os.path.dirname(os.path.dirname(os.path.dirname(os.path.abspath(__file__))))
BOOK = "file://" + os.path.join(ROOT, "target/book/")
#: From the front page to the definition of "over", its theorem, the code that decides it and a wrong program: the link
#: that is clicked, within what, and the end of the page's address and what is then in sight.
PATH = [
    ('"over": some set', "main", "promises/", None),
    ("IsOver", "main", ".antt.html#IsOver", "IsOver"),
    ("is_over-over", "[id='IsOver'] .promised", ".antt.html#is_over-over", "is_over-over"),
    ("find_over", "[id='is_over-over'] .promised", ".rt.html#find_over", "find_over"),
    ("sparsity/never_over", "[id='find_over'] .promised", "never_over.html", None),
]
#: Calls whose answers are known.
CALLS = [
    ("over", "pppp 0-1 0-2 0-3 1-2 1-3 2-3", "2\n5 15"),
    ("verdict", "ppp 0-1 0-2 1-2", "2"),
    ("verdict", "ppp 1-0", "refused by rule 6"),
    ("report", "c600c300c100 0-1:o 0-2:o 1-2:200", "121 bytes\nverdict well"),
]
ANSWER = "document.querySelector('form.try output').textContent"
PAGES = [
    "index.html",
    "believe.html",
    "entries/over.html",
    "house/index.html",
    "promises/demand-2.html",
    "docs/GUIDE.html",
    "docs/PROMISES.html",
    "fields.html",
]
failed = []


def must(holds, what):
    if not holds:
        failed.append(what)
        print("FAILED: " + what)


def mark(browser, text, within="main"):
    """Marks the first link that begins with a text, and answers how to select it."""
    found = browser.ask(
        "(() => { document.querySelectorAll('[data-next]').forEach(e => e.removeAttribute('data-next'));"
        f"const all = [...document.querySelectorAll({json.dumps(within)} + ' a')];"
        f"const a = all.find(a => a.textContent.startsWith({json.dumps(text)}));"
        "if (a) a.setAttribute('data-next', ''); return !!a; })()"
    )
    must(found, f"no link {text} within {within} of {browser.ask('location.href')}")
    return "[data-next]"


def in_sight(browser, anchor):
    top = browser.ask(f"document.getElementById({json.dumps(anchor)}).getBoundingClientRect().top / innerHeight")
    return 0 <= top < 1


def five_clicks(browser, folder):
    browser.open(BOOK + "index.html")
    for clicks, (text, within, end, anchor) in enumerate(PATH, 1):
        address = browser.follow(mark(browser, text, within))
        must(end in address, f"after {clicks} clicks {end} was to be seen, not {address}")
        must(anchor is None or in_sight(browser, anchor), f"{anchor} is not in sight after {clicks} clicks")
        if folder and clicks in (1, 2, 5):
            browser.picture(os.path.join(folder, {1: "promise", 2: "source", 5: "wrong"}[clicks] + ".png"))
    print(f"{len(PATH)} clicks: promise, definition, theorem, code, wrong program")


def names_told(browser):
    """The mouse over a name shows its comment and its type."""
    browser.open(BOOK + "promises/index.html")
    browser.follow(mark(browser, PATH[0][0]))
    browser.mouse(mark(browser, "is_over-over"), False)
    must(browser.holds("document.getElementById('hover')"), "nothing is shown where the mouse rests on a name")
    text = browser.ask("document.getElementById('hover')?.textContent")
    must(text and "is_over-over :" in text and "→" in text, f"the type is not shown: {text}")
    browser.mouse("h1", False)
    must(browser.holds("!document.getElementById('hover')"), "what is shown stays when the mouse has gone")


def search(browser):
    """Search finds names and words, and leads there."""
    browser.open(BOOK + "index.html")
    for words, hit in (
        ("IsOver", ".antt.html#IsOver"),
        ("smallest set", "promises/"),
        ("pattern_chain", "entries/chain.html"),
    ):
        browser.ask(f"(() => {{ q.value = {json.dumps(words)}; q.dispatchEvent(new Event('input')); }})()")
        links = "[...document.querySelectorAll('#found a')].map(a => decodeURIComponent(a.href))"
        must(
            browser.holds(f"!found.hidden && {links}.some(a => a.includes({json.dumps(hit)}))"), f"{words} is not found"
        )


def contract(browser, folder):
    """A contract unfolds a step at a time: its names open what stands below it, and a name in that opens more below."""
    browser.open(BOOK + "entries/over.html")
    opened = "[...document.querySelectorAll('.unfold .unfold[open]')]"
    for step in (1, 2, 3):
        where = f"{opened}.pop()" if step > 1 else "document.querySelector('.unfold')"
        browser.ask(
            f"(() => {{ const box = {where}, own = {step} > 1 && box.querySelector('summary a').href;"
            "[...box.querySelectorAll(':scope > pre a.d.B')].filter(a => a.href !== own).pop().click(); })()"
        )
        must(browser.holds(f"{opened}.length === {step}"), f"step {step} of the contract does not unfold")
    must(
        browser.ask(f"{opened}.every(d => d.querySelector('pre').textContent.length > 20)"), "what is unfolded is empty"
    )
    inside = f"[...document.querySelectorAll('.unfold a')].every(a => a.href.startsWith({json.dumps(BOOK)}))"
    must(browser.ask(inside), "a link of an unfolded definition leads outside")
    if folder:
        browser.picture(os.path.join(folder, "entry.png"))


def calls(browser):
    """Every entry point answers in its page, by the proved library, where it was made for WebAssembly."""
    browser.open(BOOK + "entries/index.html")
    pages = browser.ask("[...document.querySelectorAll('main a')].map(a => a.href)")
    browser.open(pages[0])
    if not browser.ask("!!document.querySelector('form.try')"):
        print("no library for WebAssembly: the calls to try show what is kept")
        return
    for page in pages:
        browser.open(page)
        must(browser.holds(ANSWER), f"{page}: the call is not answered")
        must(browser.ask(f"/^[0-9]/.test({ANSWER})"), f"{page}: {browser.ask(ANSWER)}")
    for name, sheet, answer in CALLS:
        browser.open(BOOK + f"entries/{name}.html")
        browser.holds(ANSWER)
        browser.ask(
            "(() => "
            f"{{ const f = document.querySelector('form.try'); {ANSWER} = ''; f.sheet.value = {json.dumps(sheet)};"
            "f.requestSubmit(); })()"
        )
        browser.holds(ANSWER)
        said = browser.ask(ANSWER)
        must(said.startswith(answer), f"{name} of {sheet}: {said} for {answer}")
    print(f"{len(pages)} entry points answer in the page")


def small(browser, folder):
    """On a telephone no page is wider than the screen; a page can be printed."""
    browser.size(390, 844, True)
    for page in PAGES:
        browser.open(BOOK + page)
        wide = browser.ask("document.scrollingElement.scrollWidth - innerWidth")
        must(wide <= 0, f"{page} is {wide} wider than a telephone")
    if folder:
        browser.open(BOOK + "believe.html")
        browser.picture(os.path.join(folder, "telephone.png"))
    browser.size(1280, 900)
    browser.open(BOOK + "believe.html")
    must(len(browser.printed()) > 20000, "the page is not printed")
    if folder:
        browser.open(BOOK + "house/index.html")
        browser.picture(os.path.join(folder, "house.png"))


def main():
    folder = sys.argv[1] if len(sys.argv) > 1 else None
    if folder:
        os.makedirs(folder, exist_ok=True)
    browser = Browser()
    try:
        five_clicks(browser, folder)
        names_told(browser)
        search(browser)
        contract(browser, folder)
        calls(browser)
        small(browser, folder)
        outside = [a for a in browser.asked if a != "about:blank" and not a.startswith(BOOK)]
        must(not outside, f"asked outside of the book: {outside[:3]}")
        must(not browser.faults, f"a script fails: {browser.faults[:2]}")
        print(f"{len(set(browser.asked))} files asked for, all of the book's own; {len(failed)} faults")
    finally:
        browser.close()
    return 1 if failed else 0


if __name__ == "__main__":
    sys.exit(main())
