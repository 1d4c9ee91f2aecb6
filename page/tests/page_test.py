#!/usr/bin/env python3
"""Tries the page in headless Chromium: what it does by itself, by keys, in both colour schemes, on a phone's width, from a
file and from a server, and in a browser that lacks what it needs.

    page_test.py ROOT PROGRAM PAGE [BROWSER [PICTURES]]

PROGRAM is the program as it runs on a machine. PICTURES, a folder, gets pictures of the page.
"""

import base64
import functools
import http.server
import json
import pathlib
import re
import sys
import tempfile
import threading
import time
import urllib.parse

HERE = pathlib.Path(__file__).resolve().parent
sys.path.insert(0, str(HERE))
sys.dont_write_bytecode = True

import selftest  # noqa: E402
from browser import Browser  # noqa: E402
from same import native  # noqa: E402

root, program, page = (pathlib.Path(it).resolve() for it in sys.argv[1:4])
pictures = pathlib.Path(sys.argv[5]) if len(sys.argv) > 5 else None
passed = failed = 0

REFUSED = "A -> B\nA => C\n"


def expect(name, holds, more=""):
    global passed, failed
    if holds:
        passed += 1
    else:
        failed += 1
        print(f"FAILED {name} {str(more)[:600]}")


def wait(browser, expression, seconds=60):
    end = time.time() + seconds
    while time.time() < end:
        value = browser.value(expression)
        if value:
            return value
        time.sleep(0.02)
    raise TimeoutError(expression)


def fragment(text):
    return "#text=" + urllib.parse.quote(text, safe="")


def show(browser, where=""):
    """Opens the page, with what stands behind the `#` of its address, and waits until the text is read."""
    browser.open(page.as_uri() + where)
    wait(browser, "document.body.dataset.done || ''")


# ---- what the page does by itself


def tests_itself(browser):
    with tempfile.TemporaryDirectory() as folder:
        own = pathlib.Path(folder) / "selftest.html"
        selftest.make(root, program, page, own)
        browser.open(own.as_uri())
        said = wait(browser, "document.title.startsWith('selftest: ') && document.getElementById('said').textContent", selftest.SECONDS)
    counts = re.match(r"selftest: (\d+) passed, (\d+) failed", said)
    global passed, failed
    passed += int(counts[1])
    failed += int(counts[2])
    for line in said.splitlines()[1:]:
        print(f"FAILED {line}")


def nothing_is_sent(browser):
    """The page asks for nothing but itself, and can't."""
    asked = []

    class Server(http.server.BaseHTTPRequestHandler):
        def do_GET(self):
            asked.append(self.path)
            body = page.read_bytes() if self.path == "/page.html" else b"no"
            self.send_response(200)
            self.send_header("Content-Type", "text/html; charset=utf-8")
            self.send_header("Content-Length", str(len(body)))
            self.end_headers()
            self.wfile.write(body)

        do_POST = do_GET

        def log_message(self, *_):
            pass

    server = http.server.ThreadingHTTPServer(("127.0.0.1", 0), Server)
    threading.Thread(target=server.serve_forever, daemon=True).start()
    address = f"http://127.0.0.1:{server.server_port}"
    show(browser)
    expect("from a file it asks for itself alone", all(it.startswith(("file://" + str(page), "blob:", "data:")) for it in browser.requests()), browser.requests())
    expect("no word of the browser on the page", not browser.errors(), browser.errors()[:2])
    tries = {
        "fetch": f"fetch('{address}/fetch').then(() => 'sent', () => '')",
        "a beacon": f"(navigator.sendBeacon('{address}/beacon', 'x'), '')",
        "an image": f"new Promise(done => {{ const i = new Image(); i.onload = () => done('sent'); i.onerror = () => done(''); i.src = '{address}/image'; }})",
        "a script": f"new Promise(done => {{ const s = document.createElement('script'); s.onload = () => done('sent'); s.onerror = () => done(''); s.src = '{address}/script'; document.head.append(s); }})",
        "a form": f"(() => {{ const f = document.createElement('form'); f.action = '{address}/form'; document.body.append(f); f.submit(); return ''; }})()",
        "a frame": f"(() => {{ const f = document.createElement('iframe'); f.src = '{address}/frame'; document.body.append(f); return ''; }})()",
        "a script in the page": "(() => { const s = document.createElement('script'); s.textContent = 'window.sent = 1'; document.head.append(s); return window.sent ? 'ran' : ''; })()",
    }
    for name, script in tries.items():
        expect(f"{name} is not let out", browser.value(script) == "")
    time.sleep(0.3)
    expect("the server was not asked", asked == [], asked)
    browser.open(f"{address}/page.html{fragment('A + B <-> C')}")
    wait(browser, "document.body.dataset.done || ''")
    expect("from a server it runs, too", "species 3: A B C" in browser.value("document.getElementById('report').textContent"))
    expect("and asks for itself alone", asked == ["/page.html"], asked)
    server.shutdown()


# ---- browsers that lack something


def lacking(browser):
    show(browser)
    text = page.read_text()
    lacks = {
        "WebAssembly": "delete window.WebAssembly",
        "workers": "delete window.Worker",
        "BigInt": "delete window.BigInt",
        "what the module needs": "WebAssembly.validate = () => false",
    }
    for name, script in lacks.items():
        added = browser.call("Page.addScriptToEvaluateOnNewDocument", source=script)["identifier"]
        browser.open(page.as_uri())
        said = browser.value("document.getElementById('unable').innerText")
        expect(f"a browser without {name} is told which one is needed", re.search(r"Firefox \d+, Chrome or Edge \d+, Safari \d+", said or "") and browser.value("document.querySelector('main').hidden"), said)
        browser.call("Page.removeScriptToEvaluateOnNewDocument", identifier=added)
    browser.call("Emulation.setScriptExecutionDisabled", value=True)
    browser.open(page.as_uri())
    browser.call("Emulation.setScriptExecutionDisabled", value=False)
    shown = browser.call("DOM.getDocument", depth=-1)
    expect("without scripts the page says what it needs", "needs JavaScript and WebAssembly" in json.dumps(shown))
    with tempfile.TemporaryDirectory() as folder:
        cut = pathlib.Path(folder) / "cut.html"
        start = text.index('id="module">') + len('id="module">')
        cut.write_text(text[:start] + "AGFzbQ" + text[text.index("</script>", start) :])
        browser.open(cut.as_uri())
        expect("a page that was cut off says so, and is not blank", "cannot run the program" in browser.value("document.getElementById('unable').innerText"))


# ---- keys, names, colours, widths

FOCUSED = """(() => { const at = document.activeElement; if (!at || at === document.body) return '';
    const ring = at.closest('.editor, .button') || at, style = getComputedStyle(ring);
    return JSON.stringify({ id: at.id, tag: at.tagName, text: (at.textContent || '').slice(0, 40), ring: style.outlineStyle !== 'none' && parseFloat(style.outlineWidth) >= 2 || at.classList.contains('part') }); })()"""


def by_keys(browser):
    """Everything is reached by Tab, shows that it is, and works by keys."""
    browser.window(1360, 900)
    show(browser, "#example=edelstein")
    seen = []
    for _ in range(120):
        browser.press("Tab")
        at = browser.value(FOCUSED)
        if not at:
            break
        seen.append(json.loads(at))
    ids = [it["id"] for it in seen]
    for name in ("choose", "open", "share", "text", "picture", "smaller", "fit", "larger", "save-picture", "unfold", "copy", "save-report", "report", "certify", "check", "prove", "steps", "sample"):
        expect(f"{name} is reached by Tab", name in ids, ids)
    expect("each line is reached by Tab", sum(it["tag"] == "SUMMARY" and re.match(r"Q\d", it["text"]) is not None for it in seen) == 15)
    expect("the first stop leads past the text", seen[0]["text"] == "Skip to the results")
    expect("it is seen where the focus is", all(it["ring"] for it in seen), [it for it in seen if not it["ring"]][:3])
    browser.value("document.getElementById('choose').focus()")
    browser.press("Enter")
    wait(browser, "document.getElementById('examples').open")
    browser.value("document.getElementById('find').focus()")
    for letter in "brussel":
        browser.press(letter)
    wait(browser, "document.querySelectorAll('#list button').length === 1")
    browser.press("Tab")
    browser.press("Tab")
    browser.press("Enter")
    wait(browser, "/^species 2: A B$/m.test(document.getElementById('report').textContent)")
    expect("an example is chosen by keys", browser.value("!document.getElementById('examples').open && /Brusselator/.test(document.getElementById('text').value)"))
    browser.value("document.getElementById('text').focus()")
    browser.press("z", control=True)
    expect("Ctrl+Z takes the example back", browser.value("/^A <-> 2A$/m.test(document.getElementById('text').value)"))
    wait(browser, "/^species 3: A B C$/m.test(document.getElementById('report').textContent)")
    browser.press("y", control=True)
    expect("and Ctrl+Y brings it again", browser.value("/Brusselator/.test(document.getElementById('text').value)"))
    wait(browser, "/^species 2: A B$/m.test(document.getElementById('report').textContent)")
    browser.value("document.querySelector('#q4 summary').focus()")
    browser.press("Enter")
    expect("a line unfolds by a key", browser.value("document.getElementById('q4').open"))
    browser.value("document.getElementById('picture').focus()")
    told = []
    for _ in range(5):
        browser.press("ArrowRight")
        told.append(browser.value("document.getElementById('pointed').innerText"))
    expect("the arrow keys tell of one part after another", len(set(told)) == 5 and all(re.match(r"Complex|Reaction", it) for it in told), told)
    browser.press("Escape")
    browser.press("Tab")
    expect("and Tab leads on", browser.value("!document.activeElement.classList.contains('part')"))


def names(browser):
    """Each thing that can be used has a name that a screen reader says."""
    for where in ("#example=edelstein", fragment(REFUSED)):
        show(browser, where)
        browser.value("document.getElementById('unfold').click(), document.querySelector('.search').open = true, 0")
        nodes = browser.call("Accessibility.getFullAXTree")["nodes"]
        value = lambda node, key: (node.get(key) or {}).get("value")
        useful = {"button", "link", "textbox", "searchbox", "spinbutton", "radio", "radiogroup", "checkbox", "combobox", "application", "progressbar", "dialog", "DisclosureTriangle"}
        bare = [(value(it, "role"), it.get("properties")) for it in nodes if not it.get("ignored") and value(it, "role") in useful and not value(it, "name")]
        expect(f"everything has a name {where[:12]}", not bare, bare[:2])
        expect(f"there is something to use {where[:12]}", sum(value(it, "role") in useful for it in nodes) > 8)
        headings = browser.value("[...document.querySelectorAll('h1, h2, h3')].filter(h => h.offsetParent).map(h => h.tagName).join(' ')")
        levels = [int(it[1]) for it in headings.split()]
        expect(f"headings come in order {where[:12]}", levels[0] == 1 and levels.count(1) == 1 and all(b <= a + 1 for a, b in zip(levels, levels[1:])), headings)
    expect("a refused text is said to be invalid", browser.value("document.getElementById('text').getAttribute('aria-invalid') === 'true' && document.getElementById('text').getAttribute('aria-describedby').includes('refusal')"))
    expect("what happens is said", browser.value("document.getElementById('status').getAttribute('role') === 'status'"))
    expect("the page says its language", browser.value("document.documentElement.lang") == "en")


CONTRAST = """(() => {
    const parse = colour => { const c = colour.match(/[\\d.]+/g).map(Number); return { r: c[0], g: c[1], b: c[2], a: c.length > 3 ? c[3] : 1 }; };
    const part = v => { v /= 255; return v <= 0.03928 ? v / 12.92 : ((v + 0.055) / 1.055) ** 2.4; };
    const light = c => 0.2126 * part(c.r) + 0.7152 * part(c.g) + 0.0722 * part(c.b);
    const behind = node => {
        if (node instanceof SVGElement) {
            const group = node.closest('.node'), box = group ? group.querySelector('.box') : node.classList.contains('title') ? node.parentElement.querySelector('.frame') : null;
            if (box) return parse(getComputedStyle(box).fill);
        }
        for (let at = node; at; at = at.parentElement) {
            const c = parse(getComputedStyle(at).backgroundColor);
            if (c.a > 0.99) return c;
        }
        return { r: 255, g: 255, b: 255, a: 1 };
    };
    const bad = [];
    let count = 0;
    for (const node of document.querySelectorAll('body *')) {
        const own = node.tagName === 'TEXTAREA' || node.tagName === 'INPUT' || [...node.childNodes].some(child => child.nodeType === 3 && child.data.trim());
        if (!own || ['SCRIPT', 'STYLE', 'DEFS'].includes(node.tagName)) continue;
        const box = node.getBoundingClientRect(), style = getComputedStyle(node);
        if (!box.width || !box.height || style.visibility === 'hidden' || style.opacity === '0' || box.right < 0) continue;
        const ink = parse(node instanceof SVGElement ? style.fill : style.color), ground = behind(node);
        const [a, b] = [light(ink), light(ground)].sort((x, y) => y - x), ratio = (a + 0.05) / (b + 0.05);
        count++;
        if (ratio < 4.5) bad.push(`${node.tagName}.${node.getAttribute('class') || ''}#${node.id} ${node.textContent.trim().slice(0, 30)}: ${ratio.toFixed(2)}`);
    }
    return JSON.stringify({ count, bad });
})()"""


def colours(browser):
    for dark in (False, True):
        scheme = "dark" if dark else "light"
        for state, where in {"a report": "#example=edelstein", "a refusal": fragment(REFUSED), "open questions": fragment(selftest.wide_numbers())}.items():
            browser.window(1360, 900, dark)
            show(browser, where)
            browser.value("document.getElementById('unfold').click(); for (const d of document.querySelectorAll('details')) d.open = true; certify().then(trySample)")
            found = json.loads(browser.value(CONTRAST))
            expect(f"contrast of {state}, {scheme}", found["count"] > 30 and not found["bad"], found["bad"][:4])
            ground = browser.value("getComputedStyle(document.body).backgroundColor")
            expect(f"the ground of {state} is {scheme}", (sum(map(int, re.findall(r"\d+", ground)[:3])) < 200) == dark, ground)
        browser.value("document.getElementById('choose').click()")
        found = json.loads(browser.value(CONTRAST))
        expect(f"contrast of the examples, {scheme}", not found["bad"], found["bad"][:4])


def widths(browser):
    for width, height in ((360, 740), (768, 1024), (1360, 900)):
        browser.window(width, height)
        for state, where in {"a report": "#example=mapk_cascade", "a refusal": fragment("A -> " + "very_long_name_of_a_species + " * 12 + "=> B"), "sixty species": fragment(selftest.sixty_species())}.items():
            show(browser, where)
            browser.value("document.getElementById('unfold').click(); for (const d of document.querySelectorAll('details')) d.open = true; share(); 0")
            wide = browser.value("document.documentElement.scrollWidth")
            expect(f"{state} fits a width of {width}", wide <= width, wide)
            small = browser.value("[...document.querySelectorAll('button, summary, input, .button')].filter(b => b.offsetParent && b.type !== 'file' && b.type !== 'radio').filter(b => b.getBoundingClientRect().height < 24).map(b => b.id || b.textContent.slice(0, 20)).join()")
            expect(f"what is pressed is large enough in {state} at {width}", not small, small)
    show(browser, fragment(selftest.sixty_species()))
    for kind in ("complexes", "species"):
        size = browser.value(f"(() => {{ const r = document.querySelector('input[name=drawn][value={kind}]'); if (!r.checked) r.click(); const t = document.querySelector('#picture .name'); return 13 * t.getBoundingClientRect().height / t.getBBox().height; }})()")
        expect(f"the names of sixty species can be read among {kind}", size >= 9, size)


def taken(browser):
    """Pictures of the page, to be looked at."""
    views = {
        "futile_cycle": ("#example=two_site_futile_cycle", 1360, False, ""),
        "futile_cycle_dark": ("#example=two_site_futile_cycle", 1360, True, ""),
        "futile_cycle_phone": ("#example=two_site_futile_cycle", 390, False, ""),
        "edelstein": ("#example=edelstein", 1360, False, "document.getElementById('unfold').click()"),
        "edelstein_phone_dark": ("#example=edelstein", 390, True, "document.querySelector('input[value=species]').click()"),
        "mapk_species": ("#example=mapk_cascade", 1360, False, "document.querySelector('input[value=species]').click(); document.querySelector('.part').dispatchEvent(new Event('click', { bubbles: true }))"),
        "sixty_species": (fragment(selftest.sixty_species()), 1360, False, ""),
        "sixty_species_reactions": (fragment(selftest.sixty_species()), 1360, True, "document.querySelector('input[value=species]').click()"),
        "sixty_species_phone": (fragment(selftest.sixty_species()), 390, False, ""),
        "refused": (fragment(REFUSED), 1360, False, ""),
        "refused_phone_dark": (fragment(REFUSED), 390, True, ""),
        "examples": ("#example=edelstein", 1360, False, "document.getElementById('choose').click()"),
        "open_questions": (fragment(selftest.kinase_first(9)), 1360, False, "document.getElementById('q14').open = true; document.getElementById('q14').scrollIntoView()"),
    }
    pictures.mkdir(parents=True, exist_ok=True)
    for name, (where, width, dark, script) in views.items():
        browser.window(width, 900, dark)
        show(browser, where)
        if script:
            browser.value(f"(() => {{ {script} }})()")
        time.sleep(0.2)
        browser.screenshot(pictures / f"{name}.png", height=3000 if width < 500 else 1700)


def main():
    browser = Browser(*sys.argv[4:5])
    try:
        for tests in (tests_itself, nothing_is_sent, lacking, by_keys, names, colours, widths):
            try:
                tests(browser)
            except (RuntimeError, TimeoutError) as error:
                expect(f"{tests.__name__} goes on to its end", False, error)
        if pictures:
            taken(browser)
    finally:
        browser.close()
    print(f"page_test: {passed} passed, {failed} failed")
    return bool(failed)


if __name__ == "__main__":
    sys.exit(main())
