"""What the page's tests have in common: a browser, the page, the built `inspect`, and a folder to work in."""

import base64
import select
import socket
import subprocess
from itertools import zip_longest
from pathlib import Path

from browser import Fault

TOP = Path(__file__).resolve().parents[2]
EXAMPLE = TOP / "examples/miura"
PLAN = ("sheet.obj", "step.bin", "pairs.bin")
VF, EE = (209, 52, 47), (224, 123, 0)

# two faces that lie off each other, but for a point that comes down through the other face: it is listed, in the parts 1 to 2
CROSSING_START = "v 0 0 0\nv 4 0 0\nv 0 4 0\nv 1 1 1\nv 1 1 9\nv 2 1 9\nf 1 2 3\nf 4 5 6\n"
CROSSING_END = CROSSING_START.replace("v 1 1 1\n", "v 1 1 -1\n")
CROSSING_STEP = bytes((0, 0, 0, 4, 0xFE, 0xFF, 0, 0))
CROSSING_PAIRS = bytes((0, 0, 1, 0))


def same(what, got, wanted):
    """Holds what is got to what is wanted; of two texts only the first line is told that differs."""
    if got == wanted:
        return
    if isinstance(got, str) and isinstance(wanted, str):
        both = list(zip_longest(got.splitlines(keepends=True), wanted.splitlines(keepends=True)))
        number, (got, wanted) = next((n, it) for n, it in enumerate(both, 1) if it[0] != it[1])
        what = f"line {number} of {what}"
    raise Fault(f"{what} is {shown(got)} and not {shown(wanted)}")


def holds(what, is_so):
    if not is_so:
        raise Fault(what)


def shown(it):
    text = repr(it)
    return text if len(text) < 1000 else text[:1000] + f".. ({len(text)})"


class Listener:
    """A port of this machine, by which a request is seen that gets out."""

    def __init__(self):
        self.socket = socket.create_server(("127.0.0.1", 0))
        self.address = "127.0.0.1:{}".format(self.socket.getsockname()[1])
        self.open = []

    def requests(self):
        """What has been asked for since the last time. A connection alone asks nothing: a browser may open one before it asks the policy."""
        asked = []
        while True:
            ready, _, _ = select.select([self.socket, *self.open], [], [], 0)
            if not ready:
                return asked
            for it in ready:
                if it is self.socket:
                    self.open.append(it.accept()[0])
                else:
                    request = it.recv(65536).decode(errors="replace")
                    if request:
                        asked.append(request.splitlines()[0])
                        it.sendall(b"HTTP/1.1 204 No Content\r\nConnection: close\r\n\r\n")
                    self.open.remove(it)
                    it.close()


class Bench:
    def __init__(self, browser, html, inspect, kept, builds, work):
        self.browser, self.html, self.inspect = browser, Path(html).resolve(), Path(inspect).resolve()
        self.work, self.kept, self.builds = Path(work), kept, builds
        self.listener, self.pages = Listener(), []
        self.looker = browser.open()
        self.looker.evaluate(READ_PICTURE)

    # ---- pages

    def page(self, fragment="", html=None, state="ready", before=""):
        """A page that is opened anew, once it is in this state."""
        page = self.browser.open(html or self.html, fragment, before)
        self.pages.append(page)
        page.show()
        page.wait("document.body && document.body.dataset.state !== 'loading' && document.body.dataset.state")
        same("the page's state", self.state(page), state)
        return page

    def close(self, page):
        """Closes a page; nothing may have been asked of a network, and nothing gone wrong."""
        self.clean(page)
        self.pages.remove(page)
        page.close()

    def all_closed(self):
        """After a test all its pages are closed, and so were held to be clean."""
        same("the pages left open", len(self.pages), 0)

    def leave(self, folder):
        """Keeps what is seen on the pages that a failed test left, and closes them."""
        for page in self.pages:
            try:
                folder.mkdir(parents=True, exist_ok=True)
                (folder / "seen.png").write_bytes(page.screenshot())
                (folder / "page.html").write_text(page.evaluate("document.body.outerHTML.slice(0, 200000)"))
                (folder / "errors").write_text("\n".join(map(str, [page.address, *page.asked, *page.errors])) + "\n")
                page.close()
            except Fault as fault:
                print(f"page: what was seen cannot be kept: {fault}")
        self.pages.clear()

    def clean(self, page):
        """Holds that the page asked nothing of the network, and that nothing went wrong in it."""
        same("what the page asked of the network", page.asked, [])
        same("what went wrong in the page", page.errors, [])

    def finish(self, page, act, seconds=20):
        """Does something that begins a run, and waits until the run has ended well."""
        runs = self.runs(page)
        state = self.state(page)
        act()
        ended = f"Number(document.body.dataset.runs || 0) > {runs} && document.body.dataset.state === 'done'"
        broken = f"['stopped', 'broken'].includes(document.body.dataset.state) && '{state}' !== document.body.dataset.state"
        try:
            page.wait(f"({ended}) || ({broken})", seconds)
        except Fault as fault:
            raise Fault(f"{fault}; the page's state: {self.state(page)}, {self.text(page, '#state')}")
        holds(f"the run did not end well: {self.text(page, '#state')}", self.state(page) == "done")

    def state(self, page):
        return page.evaluate("document.body.dataset.state")

    def runs(self, page):
        """How many runs the page has finished."""
        return page.evaluate("Number(document.body.dataset.runs || 0)")

    def example(self, page):
        """Inspects the example."""
        self.finish(page, lambda: page.evaluate("document.getElementById('example').click()"))

    def choose(self, page, *paths):
        """Inspects files that are chosen on the page."""
        self.finish(page, lambda: page.choose_files("#files", paths))

    def drop(self, page, *paths):
        """Inspects files that are dropped on the page."""
        self.finish(page, lambda: page.drop_files("#drop", paths))

    def text(self, page, selector):
        return page.evaluate("(s) => document.querySelector(s).textContent", selector)

    def seen(self, page, selector):
        """Whether an element is there and shown."""
        return page.evaluate("(s) => { const it = document.querySelector(s); return !!it && it.checkVisibility({ visibilityProperty: true }); }", selector)

    def shows_nothing(self, page):
        """Holds that no run is shown, neither one that goes on nor what one found."""
        same("what is shown", [it for it in ("#work", "#taken", "#conclusion-box", "#fault", "#found", "#bar") if self.seen(page, it)], [])

    # ---- files

    def file(self, name, text):
        """A file in the work's folder."""
        path = self.work / name
        path.parent.mkdir(parents=True, exist_ok=True)
        path.write_bytes(text.encode() if isinstance(text, str) else text)
        return path

    def frames(self, folder, start, end):
        """Two frames in a folder of their own."""
        return self.file(f"{folder}/START.obj", start), self.file(f"{folder}/END.obj", end)

    def plan(self, folder, *files):
        """The three files of a plan in a folder."""
        return [self.file(f"{folder}/{name}", it) for name, it in zip(PLAN, files, strict=True)]

    def random(self, program, count, seed, wanted):
        """Folders that a program of tools/second makes, of which those are taken that have these files."""
        folder = self.work / program
        if not folder.exists():
            built, process = self.builds[program]
            holds(f"{program} cannot be built", process.wait() == 0)
            subprocess.run([built, str(count), folder, str(seed)], check=True)
        return [it for it in sorted(folder.iterdir()) if it.name.isdigit() and all((it / name).exists() for name in wanted)]

    def plans(self):
        """100 random plans, every third of them damaged."""
        found = self.random("random", 107, 21, PLAN)
        holds(f"there are {len(found)} plans, and not 100", len(found) >= 100)
        return found[:100]

    def steps(self):
        """Some hundred pairs of random frames, a third of them damaged or not of one sheet."""
        return self.random("random_frames", 100, 10, ("sheet.obj", "next.obj"))

    def inspected(self, *words):
        """What the built `inspect` prints, and its status."""
        ran = subprocess.run([self.inspect, *map(str, words)], stdout=subprocess.PIPE, stderr=subprocess.DEVNULL)
        return ran.stdout.decode(), ran.returncode

    def inspects(self, page, what, *words):
        """Holds the page's report to what the built `inspect` prints for these files."""
        printed, _ = self.inspected(*words)
        same(f"the report of {what}", self.text(page, "#report"), printed)
        return printed

    # ---- pictures

    def pixels(self, png, colours, box=None):
        """How many pixels of each colour a PNG has, in all of it or in a box (x, y, width, height); it is read by an empty page."""
        return self.looker.evaluate("(...it) => count(...it)", base64.b64encode(png).decode(), colours, box)

    def marks(self, page, box=None, selector="#view"):
        """How many pixels of a VF mark and of an EE mark the page's picture has."""
        return self.pixels(page.screenshot(selector), [VF, EE], box)

    def differ(self, one, other):
        """How many pixels of two PNGs are plainly not the same."""
        return self.looker.evaluate("(...it) => differ(...it)", *(base64.b64encode(it).decode() for it in (one, other)))

    def middle(self, page, part=0.2):
        """The middle of the picture: a box of this part of its width and height."""
        _, _, width, height = page.box("#view")
        return [width * (1 - part) / 2, height * (1 - part) / 2, width * part, height * part]

    def still(self, page):
        """Waits until the view has turned, and is drawn."""
        page.wait("document.body.dataset.view !== 'moving'")
        self.drawn(page, 2)

    def drawn(self, page, count):
        """Waits until the page was drawn so often."""
        page.evaluate("(count) => new Promise((done) => { const next = () => (count-- ? requestAnimationFrame(next) : done()); next(); })", count)

    def settled(self, page):
        """Waits until no colour or place of the page changes any more."""
        page.wait("document.getAnimations().length === 0")


# in the empty page that reads pictures
READ_PICTURE = """
globalThis.read = async (png) => {
  const bytes = Uint8Array.from(atob(png), (c) => c.charCodeAt(0));
  const picture = await createImageBitmap(new Blob([bytes], { type: 'image/png' }), { colorSpaceConversion: 'none' });
  const canvas = new OffscreenCanvas(picture.width, picture.height).getContext('2d');
  canvas.drawImage(picture, 0, 0);
  return { canvas, width: picture.width, height: picture.height };
};
globalThis.count = async (png, colours, box) => {
  const { canvas, width, height } = await read(png);
  const { data } = canvas.getImageData(...(box || [0, 0, width, height]).map(Math.round));
  const counts = colours.map(() => 0);
  for (let i = 0; i < data.length; i += 4) {
    colours.forEach(([r, g, b], k) => { if (data[i] === r && data[i + 1] === g && data[i + 2] === b) counts[k] += 1; });
  }
  return counts;
};
globalThis.differ = async (...pngs) => {
  const [one, other] = await Promise.all(pngs.map(async (png) => { const { canvas, width, height } = await read(png); return canvas.getImageData(0, 0, width, height).data; }));
  let count = 0;
  for (let i = 0; i < one.length; i += 4) if ([0, 1, 2].some((k) => Math.abs(one[i + k] - other[i + k]) > 24)) count += 1;
  return count;
};
0
"""


def full_lists(bench, faces=12):
    """Two frames with so many faces in one place, whose pairs are too many for the lists: all but the first 56 are refused."""
    text = "v 0 0 0\n" * (3 * faces) + "".join(f"f {3 * it + 1} {3 * it + 2} {3 * it + 3}\n" for it in range(faces))
    return bench.frames(f"full-{faces}", text, text)


def long_run(bench):
    """A plan with nearly a million pairs, which takes some seconds: the example's, over and over."""
    sheet, step, pairs = ((EXAMPLE / name).read_bytes() for name in PLAN)
    return bench.plan("long-run", sheet, step, pairs * (4000000 // len(pairs)))


def packed(files):
    """Files, by their names, as base64 for the page."""
    return {name: base64.b64encode(bytes_).decode() for name, bytes_ in files.items()}
