"""The picture: what is listed is marked in it, and chosen, turned and played."""

from bench import CROSSING_END, CROSSING_START, EXAMPLE, holds, same

FOCUS_ENTRY = "(n) => { document.querySelector(`#entries button[data-entry='${n}']`).focus(); }"
WINDOW = "[...document.getElementById('ruler').children].flatMap((it, part) => (it.classList.contains('window') ? [part] : []))"
PRESSED = "[...document.querySelectorAll('#entries button')].filter((it) => it.getAttribute('aria-pressed') === 'true').map((it) => Number(it.dataset.entry))"


def crossing_in_a_corner(bench):
    """The two faces, far from a third that makes the sheet large."""
    far = "v 3000 3000 0\nv 3400 3000 0\nv 3000 3400 0\nf 7 8 9\n"
    return bench.frames("corner", CROSSING_START + far, CROSSING_END + far)


def folded_through(bench):
    """The example, in which a point goes through the film beside it."""
    end = (EXAMPLE / "next.obj").read_text()
    holds("the example has another point there", end.count("\nv -310 -443 -122\n") == 1)
    return bench.frames("through", (EXAMPLE / "sheet.obj").read_text(), end.replace("\nv -310 -443 -122\n", "\nv 590 -403 -122\n"))


def step_of(page):
    return int(page.evaluate("document.getElementById('step').value"))


def nothing_marked(bench):
    page = bench.page()
    bench.example(page)
    bench.still(page)
    for step in (0, 500, 1000):
        move_to(bench, page, step)
        same("the marks of a sheet with no entry", bench.marks(page), [0, 0])
    film = page.screenshot("#view")
    move_to(bench, page, 0)
    holds("the picture does not change over the step", page.screenshot("#view") != film)
    bench.close(page)


def move_to(bench, page, step):
    page.evaluate("(v) => { const it = document.getElementById('step'); it.value = v; it.dispatchEvent(new Event('input', { bubbles: true })); }", step)
    bench.still(page)


def chosen(bench):
    """A VF entry, chosen by keyboard: its mark then stands in the middle, at its window."""
    page = bench.page()
    start, end = crossing_in_a_corner(bench)
    bench.drop(page, start, end)
    bench.still(page)
    same("the chosen entries", page.evaluate(PRESSED), [])
    before, middle = bench.marks(page), bench.marks(page, bench.middle(page))
    same("the VF marks in the middle before", middle[0], 0)
    holds("the listed point and face are not marked", before[0] > 0)
    page.evaluate(FOCUS_ENTRY, 0)
    page.press("Enter")
    bench.still(page)
    same("the chosen entries", page.evaluate(PRESSED), [0])
    after, middle = bench.marks(page), bench.marks(page, bench.middle(page))
    holds(f"the VF marks are {before[0]} pixels before choosing, {after[0]} after, {middle[0]} in the middle", middle[0] > 20)
    # its window is the parts 1 to 2 of four
    holds(f"the step is at {step_of(page)}", 250 <= step_of(page) <= 750)
    holds(f"where: {bench.text(page, '#where')}", any(it.isdigit() for it in bench.text(page, "#where")))
    same("the EE marks", after[1], 0)
    page.evaluate(FOCUS_ENTRY, 0)
    page.press(" ")
    same("the chosen entries, once more", page.evaluate(PRESSED) in ([0], []), True)
    bench.close(page)
    return f"{before[0]} pixels before, {after[0]} after, {middle[0]} of them in the middle"


def each_chosen(bench):
    """Of many entries each can be chosen, and the mark of its kind is then in the middle."""
    page = bench.page()
    start, end = folded_through(bench)
    bench.drop(page, start, end)
    report = bench.inspects(page, "the folded film", start, end)
    lines = [it.split() for it in report.split("\n") if it[:3] in ("VF ", "EE ") and it[3].isdigit()]
    same("the entries", page.evaluate("document.querySelectorAll('#entries button').length"), len(lines))
    same("their numbers", page.evaluate("[...document.querySelectorAll('#entries button')].map((it) => Number(it.dataset.entry))"), list(range(len(lines))))
    holds("there are no entries of both kinds", len({it[0] for it in lines}) == 2)
    entries = [0, next(n for n, it in enumerate(lines) if it[0] == "EE"), len(lines) - 1]
    for n in entries:
        page.evaluate(FOCUS_ENTRY, n)
        page.press("Enter")
        bench.still(page)
        same("the chosen entries", page.evaluate(PRESSED), [n])
        kind, *_, first, last = lines[n]
        middle = bench.marks(page, bench.middle(page, 0.3))
        holds(f"entry {n}, {' '.join(lines[n])}: marks in the middle {middle}", middle[kind == "EE"] > 5)
        first, last = int(first), int(last)
        same(f"the step at entry {n}", step_of(page), 125 * (first + last + 1))
        same(f"the parts of entry {n}", page.evaluate(WINDOW), list(range(first, last + 1)))
    # the list by keys
    at = lambda: page.evaluate("Number(document.activeElement.dataset.entry)")
    for key, wanted in (("Home", 0), ("ArrowDown", 1), ("End", len(lines) - 1), ("ArrowUp", len(lines) - 2)):
        page.press(key)
        same(f"the entry after {key}", at(), wanted)
    bench.close(page)
    return f"{len(lines)} entries"


def turned_by_keys(bench):
    page = bench.page()
    bench.example(page)
    bench.still(page)
    before = page.screenshot("#view")
    page.evaluate("document.getElementById('view').focus()")
    page.press("ArrowRight")
    bench.still(page)
    holds("a key does not turn the picture", bench.differ(before, page.screenshot("#view")) > 1000)
    bench.close(page)


def turned(bench):
    """The picture turns with the mouse and comes nearer by the wheel; then the whole sheet is seen as before."""
    page = bench.page()
    bench.example(page)
    bench.still(page)
    before = page.screenshot("#view")
    same("the picture, drawn once more", page.screenshot("#view"), before)
    page.drag("#view", 120, 60)
    bench.still(page)
    dragged = page.screenshot("#view")
    holds("dragging does not turn the picture", bench.differ(before, dragged) > 1000)
    page.evaluate("document.getElementById('view').dispatchEvent(new WheelEvent('wheel', { deltaY: -200, cancelable: true }))")
    bench.still(page)
    holds("the wheel does not come nearer", bench.differ(dragged, page.screenshot("#view")) > 1000)
    page.evaluate("document.getElementById('whole').click()")
    bench.still(page)
    same("pixels of the whole sheet that are not as before", bench.differ(before, page.screenshot("#view")), 0)
    bench.close(page)


def seen_at(bench, start, end, step):
    """The picture of two frames, in which nothing is listed, at a place of the step."""
    page = bench.page()
    bench.drop(page, *bench.frames("seen", start, end))
    same("the marks", bench.marks(page), [0, 0])
    move_to(bench, page, step)
    picture = page.screenshot("#view")
    bench.close(page)
    return picture


def both_ends(bench):
    """At the beginning of a step the film is seen as in the first frame, at its end as in the second."""
    # two faces rest, so that all are seen from the same place; one goes along between them
    rest = "v -999 -999 -999\nv -799 -999 -999\nv -999 -799 -999\nv 999 999 999\nv 799 999 999\nv 999 799 999\n"
    start, end = (f"{rest}v {x} 0 0\nv {x + 300} 0 0\nv {x} 300 0\nf 1 2 3\nf 4 5 6\nf 7 8 9\n" for x in (-600, 300))
    first, last = seen_at(bench, start, end, 0), seen_at(bench, start, end, 1000)
    holds("the picture is the same at both ends", bench.differ(first, last) > 1000)
    same("pixels that are not as in the first frame", bench.differ(first, seen_at(bench, start, start, 500)), 0)
    same("pixels that are not as in the second frame", bench.differ(last, seen_at(bench, end, end, 500)), 0)


def edges_drawn(bench):
    """A square of two faces is seen to be cut along the one diagonal or the other."""
    points = "v 0 0 0\nv 900 0 0\nv 900 900 0\nv 0 900 0\n"
    one, other = (seen_at(bench, points + faces, points + faces, 0) for faces in ("f 1 2 3\nf 1 3 4\n", "f 1 2 4\nf 2 3 4\n"))
    differ = bench.differ(one, other)
    holds(f"the edges are not seen: {differ} pixels differ", 100 < differ < 10000)


def played(bench):
    page = bench.page()
    bench.example(page)
    move_to(bench, page, 0)
    where = bench.text(page, "#where")
    page.evaluate("document.getElementById('play').focus()")
    page.press("Enter")
    page.wait("Number(document.getElementById('step').value) > 30")
    page.press("Enter")
    stands = step_of(page)
    bench.drawn(page, 20)
    same("the step, once it does not play", step_of(page), stands)
    holds("where in the step is not told", bench.text(page, "#where") != where)
    # the slider by keys
    move_to(bench, page, 500)
    page.evaluate("document.getElementById('step').focus()")
    page.press("ArrowRight")
    holds("a key does not move the step", step_of(page) > 500)
    page.press("End")
    same("the step at its end", step_of(page), 1000)
    bench.close(page)


def in_front(bench):
    """Two faces that go through each other, so that each hides a part of the other: the picture does not hang on their order."""
    points = "v -1000 -1000 0\nv 1000 -1000 0\nv 0 1000 0\nv -800 0 -600\nv 800 0 -600\nv 0 -200 900\n"
    pictures = []
    for faces in ("f 1 2 3\nf 4 5 6\n", "f 4 5 6\nf 1 2 3\n"):
        page = bench.page()
        text = points + faces
        bench.drop(page, *bench.frames(f"front-{faces[2]}", text, text))
        # no entry is chosen, and the marks of the listed ones are the same but for the order in which they are drawn
        move_to(bench, page, 500)
        pictures.append(page.screenshot("#view"))
        bench.close(page)
    differ = bench.differ(*pictures)
    holds(f"the picture hangs on the order of the faces, in {differ} pixels", differ < 200)
    return f"{differ} pixels differ"


def dark_and_calm(bench):
    """In dark colours the marks are the same; where less motion is wanted, the view turns at once."""
    page = bench.page()
    page.call("Emulation.setEmulatedMedia", features=[{"name": "prefers-color-scheme", "value": "dark"}, {"name": "prefers-reduced-motion", "value": "reduce"}])
    bench.drop(page, *crossing_in_a_corner(bench))
    page.evaluate(FOCUS_ENTRY, 0)
    page.press("Enter")
    same("the view", page.evaluate("document.body.dataset.view"), "still")
    bench.still(page)
    middle = bench.marks(page, bench.middle(page))
    holds(f"marks in the middle: {middle}", middle[0] > 20)
    bench.close(page)


def given_back(bench):
    """A picture that the browser has lost is drawn again once it is given back, also where a film came between."""
    pictures = []
    for loses in (False, True):
        page = bench.page()
        bench.example(page)
        bench.still(page)
        if loses:
            page.evaluate("(() => { globalThis.losing = document.getElementById('view').getContext('webgl').getExtension('WEBGL_lose_context'); losing.loseContext(); })()")
            page.wait("!document.getElementById('no-picture').hidden")
        bench.drop(page, *folded_through(bench))
        same("whether it is told that there is no picture", bench.seen(page, "#no-picture"), loses)
        if loses:
            page.evaluate("losing.restoreContext()")
            page.wait("document.getElementById('no-picture').hidden")
            page.errors.clear()
        bench.still(page)
        pictures.append(page.screenshot("#view"))
        bench.close(page)
    same("pixels that are not the same", bench.differ(*pictures), 0)


def without_pictures(bench):
    """A browser that draws no picture still gets the answer."""
    page = bench.page(before="HTMLCanvasElement.prototype.getContext = () => null;")
    holds("a picture is promised", bench.seen(page, "#no-picture") and not bench.seen(page, "#empty"))
    start, end = folded_through(bench)
    bench.drop(page, start, end)
    bench.inspects(page, "the folded film", start, end)
    page.evaluate(FOCUS_ENTRY, 1)
    page.press("Enter")
    same("the chosen entries", page.evaluate(PRESSED), [1])
    bench.close(page)


tests = [
    ("a sheet with nothing marked", nothing_marked),
    ("a listed point chosen by keyboard", chosen),
    ("entries of both kinds chosen", each_chosen),
    ("what is in front", in_front),
    ("dark colours and less motion", dark_and_calm),
    ("no picture", without_pictures),
    ("a picture that was lost", given_back),
    ("the picture turned by dragging", turned),
    ("the film at both ends", both_ends),
    ("the edges of faces", edges_drawn),
    ("the picture turned by keys", turned_by_keys),
    ("the step played, and moved by keys", played),
]
