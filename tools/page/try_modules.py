"""The modules of the page: its own tests, the module for memories of 32 bits, and a module that cannot be run."""

import re

from bench import CROSSING_END, CROSSING_START, EXAMPLE, PLAN, TOP, holds, packed, same
from modules import imported, named, opened
from policy import hash_of
from try_answers import ASK_FOLDERS

WEB = TOP / "web"
RUN_TESTS = """
  const results = [];
  for (const [name, act] of tests) {
    try { await act(); results.push([name, null]); } catch (error) { results.push([name, String(error && error.stack || error)]); }
  }
  return results;
"""
GIVE_MODULE = "globalThis.moduleBytes = async () => bytesOfBase64(embedded('module')); 0"


def test_script(path, has):
    """A test file and what it needs, as a function that is called; `has` are the modules that the page has already."""
    needed = []

    def need(file):
        if file not in has and file not in needed:
            for other in imported(file):
                need(other)
            needed.append(file)

    need(path.resolve())
    return "(async () => {\n" + "\n".join(map(opened, needed)) + RUN_TESTS + "})()"


def own_tests(bench):
    page = bench.page()
    page.evaluate(GIVE_MODULE)
    has = [(WEB / name).resolve() for name in named((WEB / "page.html").read_text(), "page")]
    count, files = 0, sorted(it for it in (WEB / "tests").glob("*.js") if it.name not in ("harness.js", "run.js"))
    for path in files:
        for name, error in page.evaluate(test_script(path, has), seconds=30):
            same(f"{path.name}, {name}", error, None)
            count += 1
    holds("there are no tests", count)
    bench.close(page)
    return f"{count} tests in {len(files)} files"


def has32(page):
    return page.evaluate("document.getElementById('module32').textContent.trim() !== ''")


def narrow(bench):
    """The module for memories of 32 bits gives the same texts: asked for, and where a browser has no other."""
    page = bench.page()
    same("the module", page.evaluate("document.body.dataset.module"), "64")
    if not has32(page):
        bench.close(page)
        return "skipped: the page has no such module"
    folders = bench.plans()
    files = [packed({name: (it / name).read_bytes() for name in PLAN}) for it in folders]
    wide = page.evaluate(ASK_FOLDERS, files, seconds=30)
    bench.close(page)
    for fragment, before in (("#32", ""), ("", "WebAssembly.validate = () => false;")):
        page = bench.page(fragment, before=before)
        same("the module", page.evaluate("document.body.dataset.module"), "32")
        same("the answers", page.evaluate(ASK_FOLDERS, files, seconds=30), wide)
        bench.example(page)
        same("the report", bench.text(page, "#report"), bench.inspected(EXAMPLE / "sheet.obj", EXAMPLE / "next.obj")[0])
        bench.close(page)
    return f"{len(folders)} folders"


def damaged(bench):
    """A page whose modules are damaged says so in a sentence, and so does a browser that has no WebAssembly."""
    text = bench.html.read_text()
    module = re.compile(r'(<script type="text/plain" id="(?:module|module32)">\s*)([A-Za-z0-9+/=]+)')
    holds("the page has no module", module.search(text))
    pages = {
        "cut": (module.sub(lambda it: it[1] + it[2][: len(it[2]) // 8 * 4], text), ""),
        "changed": (module.sub(lambda it: it[1] + it[2][:400] + "////" + it[2][404:], text), ""),
        "no base64": (module.sub(lambda it: it[1] + "*" + it[2][1:], text), ""),
        "no WebAssembly": (text, "delete globalThis.WebAssembly;"),
    }
    for name, (changed, before) in pages.items():
        html = bench.file(f"{name.replace(' ', '-')}.html", changed)
        page = bench.page(html=html, state="broken", before=before)
        told = bench.text(page, "#state").strip()
        holds(f"{name}: what is told is {told!r}", len(told) > 20 and told.endswith((".", ")")) and "undefined" not in told)
        holds(f"{name}: nothing of it is shown", bench.seen(page, "#state"))
        page.asked.clear()
        page.errors.clear()
        bench.close(page)
    # a script that was changed is not the one that the policy names, so it does not run
    wired = "const begun = begin();"
    holds("the page has another form", text.count(wired) == 1)
    page = bench.browser.open(bench.file("changed-script.html", text.replace(wired, wired + " ")))
    page.wait("document.readyState === 'complete'")
    same("the state of a page whose script was changed", bench.state(page), "loading")
    holds("that it was changed is not told", bench.text(page, "#state").endswith("get it again."))
    page.close()


def failing(bench):
    """A call that fails, and what fails after it: both are told, nothing of the run is shown, and a new worker does the next run."""
    text = bench.html.read_text()
    begins = "function call(name, ...areas) {"
    shows = "stage.show(film, report.entries);"
    holds("the page has another form", text.count(begins) == 1 and text.count(shows) == 1)
    dead = f"let dead = false; {begins} dead = dead || name === 'page_inspect'; if (dead) throw new RangeError('no memory');"
    pages = {
        "in the worker": text.replace(begins, dead),
        "in the page": text.replace(shows, "if (what.kind === 'plan') throw new Error('no memory'); " + shows),
    }
    pages = {name: changed.replace(hash_of(text, "script"), hash_of(changed, "script")) for name, changed in pages.items()}
    start, end = bench.frames("crossing", CROSSING_START, CROSSING_END)
    for name, changed in pages.items():
        page = bench.page(html=bench.file("failing.html", changed))
        for _ in range(2):
            page.choose_files("#files", [EXAMPLE / it for it in PLAN])
            page.wait("document.body.dataset.state === 'stopped'")
            same(f"{name}: what is told", bench.text(page, "#state"), "The run stopped: no memory. Nothing is said of these files.")
            bench.shows_nothing(page)
            bench.choose(page, start, end)
            bench.inspects(page, "the next run", start, end)
        bench.close(page)


tests = [
    ("the modules' own tests", own_tests),
    ("a run that fails", failing),
    ("the module of 32 bits", narrow),
    ("a page that cannot work", damaged),
]
