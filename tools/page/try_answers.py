"""What the page answers: the report word for word, and what it tells of a fault."""

import base64
import random
import shutil

from bench import CROSSING_END, CROSSING_PAIRS, CROSSING_START, CROSSING_STEP, EXAMPLE, PLAN, Fault, full_lists, holds, long_run, packed, same

ASK_FOLDERS = """async (folders) => {
  const unpack = (it) => Uint8Array.from(atob(it), (c) => c.charCodeAt(0));
  const answers = [];
  for (const it of folders) {
    const { code, text, refused } = await keeper.ask('inspect', { sheet: unpack(it['sheet.obj']), step: unpack(it['step.bin']), pairs: unpack(it['pairs.bin']) });
    answers.push([text, code, btoa(Array.from(refused || [], (it) => String.fromCharCode(it)).join(''))]);
  }
  return answers;
}"""
SLOW_FILES = """(() => {
  const read = new Promise((done) => { globalThis.letRead = () => done(new ArrayBuffer(1)); });
  const slow = (name) => ({ name, file: { size: 1, arrayBuffer: () => read } });
  globalThis.taken = take([slow('a.obj'), slow('b.obj')]);
})()"""
ASK_FRAMES = """async (folders) => {
  const unpack = (it) => Uint8Array.from(atob(it), (c) => c.charCodeAt(0));
  const answers = [];
  for (const it of folders) {
    const { code, text } = await keeper.ask('frames', { start: unpack(it['sheet.obj']), end: unpack(it['next.obj']) });
    answers.push([text, code > 1 ? 1 : 0]);
  }
  return answers;
}"""


def example(bench):
    page = bench.page()
    begun = page.evaluate("performance.now()")
    bench.example(page)
    took = page.evaluate("performance.now()") - begun
    report, _ = bench.inspected(EXAMPLE / "sheet.obj", EXAMPLE / "next.obj")
    same("the example's report", bench.text(page, "#report"), report)
    holds("the stored report is not in it", (EXAMPLE / "report.txt").read_text() in report)
    holds("the page shows a fault", not bench.seen(page, "#fault"))
    holds("the page shows refused pairs", not bench.seen(page, "#refusals"))
    same("the entries", entries(page), 0)
    bench.close(page)
    return f"{took:.0f} ms"


def entries(page):
    """How many entries the page lists."""
    return page.evaluate("document.querySelectorAll('#entries button').length")


def example_folder(bench):
    page = bench.page()
    bench.drop(page, *(EXAMPLE / name for name in PLAN))
    same("the report", bench.text(page, "#report"), (EXAMPLE / "report.txt").read_text())
    bench.choose(page, *(EXAMPLE / name for name in PLAN[::-1]))
    same("the report", bench.text(page, "#report"), (EXAMPLE / "report.txt").read_text())
    bench.close(page)


def two_frames(bench):
    page = bench.page()
    start, end = bench.frames("crossing", CROSSING_START, CROSSING_END)
    for paths in ((start, end), (end, start)):
        bench.drop(page, *paths)
        bench.inspects(page, "two frames", start, end)
    same("the entries", entries(page), 1)
    conclusion = bench.text(page, "#conclusion")
    holds(f"the conclusion does not end as a sentence: {conclusion}", conclusion.strip().endswith("."))
    holds("the counts are not a table", page.evaluate("document.querySelector('#counts').matches('table') || !!document.querySelector('#counts table')"))
    counts = bench.text(page, "#counts")
    holds(f"the counts lack a number: {counts}", all(it in counts for it in "1569"[:3]))
    bench.close(page)


def dropped_folder(bench):
    """The folder itself, dropped."""
    page = bench.page()
    bench.drop(page, EXAMPLE)
    same("the report", bench.text(page, "#report"), (EXAMPLE / "report.txt").read_text())
    bench.close(page)


def random_folders(bench):
    folders = bench.plans()
    files = [packed({name: (it / name).read_bytes() for name in PLAN}) for it in folders]
    page = bench.page()
    answers = page.evaluate(ASK_FOLDERS, files, seconds=30)
    damaged = refusing = 0
    for folder, (text, code, refused) in zip(folders, answers, strict=True):
        kept = bench.work / "refused.bin"
        kept.unlink(missing_ok=True)
        printed, status = bench.inspected("--refused", kept, folder)
        try:
            same("the text", text, printed)
            same("the status", code, status)
            if status == 0:
                same("the refused pairs", base64.b64decode(refused), kept.read_bytes())
        except Fault as fault:
            shutil.copytree(folder, bench.kept / folder.name, dirs_exist_ok=True)
            raise Fault(f"{folder.name}, which is kept in {bench.kept}: {fault}")
        damaged += status
        refusing += "fault" in printed and not status
    holds(f"only {damaged} folders have a fault and only {refusing} refused pairs", damaged >= 10 and refusing >= 10)
    bench.close(page)
    return f"100 folders, {damaged} with a fault, {refusing} with refused pairs"


def random_frames(bench):
    folders = bench.steps()
    files = [packed({name: (it / name).read_bytes() for name in ("sheet.obj", "next.obj")}) for it in folders]
    page = bench.page()
    answers = page.evaluate(ASK_FRAMES, files, seconds=30)
    ended = 0
    for folder, (text, code) in zip(folders, answers, strict=True):
        printed, status = bench.inspected(folder / "sheet.obj", folder / "next.obj")
        same(f"the text of {folder.name}", text, printed)
        same(f"the status of {folder.name}", code, status)
        ended += status
    bench.close(page)
    return f"{len(folders)} steps, {ended} without a record"


def dropped_random(bench):
    """Some of the folders by the page's own input, from file to text."""
    page = bench.page()
    for folder in random.Random(7).sample(bench.plans(), 12):
        printed, _ = bench.inspected(folder)
        bench.choose(page, *(folder / name for name in PLAN))
        same(f"the report of {folder.name}", bench.text(page, "#report"), printed)
    bench.close(page)


def fault(bench):
    page = bench.page()
    bad = "v 1 1 -x1 <b>\n"
    start, end = bench.frames("fault", CROSSING_START, CROSSING_START.replace("v 1 1 1\n", bad))
    bench.drop(page, start, end)
    report, status = bench.inspected(start, end)
    same("the status of inspect", status, 1)
    same("the report", bench.text(page, "#report"), report)
    holds("the fault is not shown", bench.seen(page, "#fault"))
    told = bench.text(page, "#fault")
    for part in (report.strip(), "END.obj", "4", bad.strip(), "The third field, “-x1 <b>”, is not a whole number"):
        holds(f"the fault does not tell {part!r}: {told}", part in told)
    same("the entries", entries(page), 0)
    # the first frame's fault comes first
    start = bench.file("fault/START.obj", CROSSING_START.replace("f 1 2 3\n", "f 1 2 9\n"))
    bench.drop(page, start, end)
    report, _ = bench.inspected(start, end)
    told = bench.text(page, "#fault")
    for part in (report.strip(), "START.obj", "7", "f 1 2 9", "“9”, names no point above the line."):
        holds(f"the fault does not tell {part!r}: {told}", part in told)
    # what is inspected next has none
    bench.example(page)
    holds("the fault of the run before is shown", not bench.seen(page, "#fault"))
    bench.close(page)


def fault_in_a_folder(bench):
    page = bench.page()
    sheet = (EXAMPLE / "sheet.obj").read_text().replace("v ", "v 9999 ", 1)
    folder = bench.work / "damaged"
    bench.file("damaged/sheet.obj", sheet)
    for name in PLAN[1:]:
        shutil.copy(EXAMPLE / name, folder / name)
    line = next(number for number, it in enumerate(sheet.split("\n"), 1) if it.startswith("v 9999"))
    for step in (None, b"\0"):
        if step:
            shutil.copy(EXAMPLE / "sheet.obj", folder / "sheet.obj")
            bench.file("damaged/step.bin", step)
        bench.drop(page, *(folder / name for name in PLAN))
        report, status = bench.inspected(folder)
        same("the status of inspect", status, 1)
        same("the report", bench.text(page, "#report"), report)
        told = bench.text(page, "#fault")
        parts = ("step.bin",) if step else ("sheet.obj", str(line), sheet.split("\n")[line - 1])
        for part in (report.strip(), *parts):
            holds(f"the fault does not tell {part!r}: {told}", part in told)
    bench.close(page)


def frames_that_differ(bench):
    page = bench.page()
    ends = {
        "points": CROSSING_START.replace("f ", "v 1 1 1\nf ", 1),
        "faces": CROSSING_START + "f 1 2 4\n",
        "face": CROSSING_START.replace("f 4 5 6", "f 4 6 5"),
    }
    for name, text in ends.items():
        start, end = bench.frames(f"differ-{name}", CROSSING_START, text)
        bench.drop(page, start, end)
        report, status = bench.inspected(start, end)
        same("the status of inspect", status, 1)
        same("the report", bench.text(page, "#report"), report)
        holds("that the frames differ is not shown", bench.seen(page, "#fault") and report.strip() in bench.text(page, "#fault"))
    bench.close(page)


def refused_pairs(bench):
    page = bench.page()
    start, end = full_lists(bench)
    bench.drop(page, start, end)
    report, _ = bench.inspected(start, end)
    same("the report", bench.text(page, "#report"), report)
    holds("inspect refused nothing", "\nrefused 10 pairs\n" in report)
    holds("the refused pairs are not shown", bench.seen(page, "#refusals"))
    holds("why they are refused is not told", bench.text(page, "#refused").count("A list had too little room left") == 10)
    holds("the conclusion does not tell them", "10" in bench.text(page, "#conclusion"))
    same("the entries", entries(page), report.count("\nVF ") + report.count("\nEE ") - 2)
    # in a run of their own none is refused
    sheet, step, pairs = start.read_bytes(), bytes(36), bytes(it for a in range(12) for b in range(a + 1, 12) for it in (a, 0, b, 0))
    rest = bench.plan("rest", sheet, step, pairs[-40:])
    bench.finish(page, lambda: page.evaluate("document.getElementById('again').click()"))
    printed = bench.inspects(page, "the refused pairs", rest[0].parent)
    holds("some are refused again", "fault" not in printed and not bench.seen(page, "#refusals"))
    holds("the conclusion says too much", "every two faces of the sheet" not in bench.text(page, "#conclusion"))
    bench.close(page)


def swapped(bench):
    """Two frames whose names tell no order are taken as they stand, and can be swapped."""
    page = bench.page()
    one, other = bench.file("swap/a1.obj", CROSSING_START), bench.file("swap/a2.obj", CROSSING_END.replace("v 1 1 9", "v 1 2 9"))
    bench.drop(page, other, one)
    first = bench.inspects(page, "the frames by name", one, other)
    bench.finish(page, lambda: page.evaluate("document.getElementById('swap').click()"))
    second = bench.inspects(page, "the frames swapped", other, one)
    same("the entries", entries(page), sum(it[:3] in ("VF ", "EE ") and it[3].isdigit() for it in second.splitlines()))
    bench.close(page)
    holds("nothing is listed", "VF 3 0" in first)


def files_that_do_not_fit(bench):
    """What cannot be inspected is told, and the page works on."""
    page = bench.page()
    start, end = bench.frames("crossing", CROSSING_START, CROSSING_END)
    for paths in ((start,), (EXAMPLE / "step.bin",), (start, end, EXAMPLE / "sheet.obj"), (EXAMPLE / "report.txt",)):
        before = bench.text(page, "#state")
        page.choose_files("#files", paths)
        page.until(f"something is told of {[it.name for it in paths]}", lambda: bench.text(page, "#state") != before)
        same("the state", bench.state(page), "ready")
        bench.shows_nothing(page)
        bench.choose(page, start, end)
        same("the report", bench.text(page, "#report"), bench.inspected(start, end)[0])
    bench.close(page)


def conclusions(bench):
    """A conclusion says no more than is proved of the pairs that were offered and not refused."""
    page = bench.page()
    start, end = bench.frames("crossing", CROSSING_START, CROSSING_END)
    apart = bench.frames("apart", CROSSING_START, CROSSING_START)
    offered = bench.plan("offered", CROSSING_START, CROSSING_STEP, CROSSING_PAIRS)
    none = bench.plan("none", CROSSING_START, CROSSING_STEP, b"")
    only_refused = bench.plan("only-refused", CROSSING_START, CROSSING_STEP, bytes(4))
    sheet, other = "every two faces of the sheet", "not offered nothing is said"
    # what was inspected, what the conclusion has to say, and what it may not
    cases = [
        ("covered", (start, end), (sheet, "1 test is listed", "not listed stays apart"), ("refused",)),
        ("covered, none listed", apart, (sheet, "stays apart"), ("refused", "not listed stays")),
        ("some refused", full_lists(bench), (sheet + " but the refused pairs", "10 pairs were refused", "nothing is said"), ()),
        ("a plan", offered, ("1 test is listed", other), (sheet,)),
        ("a plan with no pairs", none, ("nothing is said",), (sheet, "stays apart")),
        ("a plan whose pairs are refused", only_refused, ("nothing is said",), (sheet, "stays apart")),
        ("a plan whose near pairs are found", offered[:2], (sheet, "1 test is listed"), ("refused",)),
    ]
    for name, paths, wanted, unwanted in cases:
        bench.choose(page, *paths)
        told = page.evaluate("document.getElementById('conclusion').parentElement.textContent").lower()
        for part in wanted:
            holds(f"the conclusion of {name} does not say {part!r}: {told}", part in told)
        for part in unwanted:
            holds(f"the conclusion of {name} says {part!r}: {told}", part not in told)
    bench.close(page)


def long_texts(bench):
    """A report that is longer than the page that is first lent, and a sheet that is too long."""
    page = bench.page()
    paths = bench.plan("long", CROSSING_START, CROSSING_STEP, bytes(4 * 60000) + CROSSING_PAIRS)
    printed, _ = bench.inspected(paths[0].parent)
    holds("the report is not long", len(printed) > 1 << 20)
    files = packed({name: (paths[0].parent / name).read_bytes() for name in PLAN})
    [[text, code, refused]] = page.evaluate(ASK_FOLDERS, [files])
    same("the long report", text, printed)
    same("the refused pairs", (code, base64.b64decode(refused)), (0, bytes(4 * 60000)))
    bench.choose(page, *paths)
    holds("the end of the report is not shown", bench.text(page, "#report").endswith(printed[-200:]))
    start, end = full_lists(bench, 350)
    printed, _ = bench.inspected(start, end)
    holds("the report is not long", len(printed) > 1 << 20)
    [[text, code]] = page.evaluate(ASK_FRAMES, [packed({"sheet.obj": start.read_bytes(), "next.obj": end.read_bytes()})])
    same("the long report of two frames", (text == printed, code), (True, 0))
    for size in (65536, 65537, 70000):
        start, end = bench.frames("too-long", CROSSING_START + "#" * (size - len(CROSSING_START)), CROSSING_END)
        bench.choose(page, start, end)
        bench.inspects(page, f"a sheet of {size} bytes", start, end)
    bench.close(page)


def run_upon_run(bench):
    """Files that come while others are inspected: what is shown is of the last."""
    page = bench.page()
    page.choose_files("#files", long_run(bench))
    page.wait("document.body.dataset.state === 'working'")
    bench.example(page)
    bench.inspects(page, "the last", EXAMPLE / "sheet.obj", EXAMPLE / "next.obj")
    same("the finished runs", bench.runs(page), 1)
    # files that are still being read when others come, and are read later than these
    page.evaluate(SLOW_FILES)
    bench.example(page)
    page.evaluate("letRead(); taken")
    same("the finished runs", (bench.state(page), bench.runs(page)), ("done", 2))
    bench.inspects(page, "the last", EXAMPLE / "sheet.obj", EXAMPLE / "next.obj")
    bench.close(page)


tests = [
    ("the example's report", example),
    ("the example as a folder, dropped and chosen", example_folder),
    ("a dropped folder", dropped_folder),
    ("two dropped frames", two_frames),
    ("random folders, in the page's own core", random_folders),
    ("random frames, in the page's own core", random_frames),
    ("random folders, by the page's input", dropped_random),
    ("a fault in a frame", fault),
    ("a fault in a folder", fault_in_a_folder),
    ("frames that differ", frames_that_differ),
    ("frames swapped", swapped),
    ("refused pairs", refused_pairs),
    ("conclusions", conclusions),
    ("long texts", long_texts),
    ("files that come during a run", run_upon_run),
    ("files that do not fit", files_that_do_not_fit),
]
