"""Who can use the page, and what it leaves alone: keyboard and screen reader, network, storage, and a run that is stopped."""

import re

from bench import CROSSING_END, CROSSING_PAIRS, CROSSING_START, CROSSING_STEP, EXAMPLE, Fault, full_lists, holds, long_run, same

IDS = "drop files example state stop conclusion counts entries refusals report fault downloads view step play where".split()
# what a hand can reach: shown, and not switched off
CONTROLS = """[...document.querySelectorAll('button, input, select, textarea, summary, a[href], [tabindex]')]
  .filter((it) => it.tabIndex >= 0 && !it.disabled && it.checkVisibility({ visibilityProperty: true }))
  .map((it, n) => { it.dataset.walk = n; return it.outerHTML.slice(0, 120); })"""
FOCUSED = """(() => { const it = document.activeElement; return it && it !== document.body ? it.dataset.walk ?? ('#' + it.id) : null; })()"""
ROLES = {"button", "link", "slider", "textbox", "checkbox", "radio", "combobox", "listbox", "image", "img", "canvas", "table", "region", "group"}
MUST_HAVE_NAMES = ROLES - {"table", "region", "group"}
KEPT = """(async () => [localStorage.length, sessionStorage.length, (await indexedDB.databases()).length, document.cookie])()"""
OUTLINE = """(() => { const it = document.activeElement; return getComputedStyle(it.matches('input.unseen') ? it.nextElementSibling : it).outlineStyle; })()"""
# texts that stand out too little from their ground
FAINT = """(() => {
  const dot = new OffscreenCanvas(1, 1).getContext('2d', { willReadFrequently: true });
  const painted = (colours) => {
    for (const it of colours) { dot.fillStyle = it; dot.fillRect(0, 0, 1, 1); }
    const [r, g, b] = [...dot.getImageData(0, 0, 1, 1).data].map((it) => (it / 255 <= 0.04045 ? it / 255 / 12.92 : ((it / 255 + 0.055) / 1.055) ** 2.4));
    return 0.2126 * r + 0.7152 * g + 0.0722 * b + 0.05;
  };
  const faint = [];
  for (const it of document.querySelectorAll('body *')) {
    if (!it.checkVisibility({ visibilityProperty: true }) || ![...it.childNodes].some((node) => node.nodeType === 3 && node.data.trim())) continue;
    const grounds = [];
    for (let at = it; at; at = at.parentElement) grounds.unshift(getComputedStyle(at).backgroundColor);
    const [ground, text] = [painted(grounds), painted([...grounds, getComputedStyle(it).color])];
    const ratio = Math.max(ground, text) / Math.min(ground, text);
    if (ratio < 4.5) faint.push(`${it.outerHTML.slice(0, 80)}: ${ratio.toFixed(1)}`);
  }
  return faint;
})()"""
REACH = """async (address) => {
  // where only the policy tells that it was refused
  const told = (act) => new Promise((done, failed) => { addEventListener('securitypolicyviolation', failed, { once: true }); act(); });
  const tries = {
    fetch: () => fetch(`http://${address}/`),
    request: () => new Promise((done, failed) => { const it = new XMLHttpRequest(); it.onload = done; it.onerror = failed; it.open('GET', `http://${address}/`); it.send(); }),
    image: () => new Promise((done, failed) => { const it = new Image(); it.onload = done; it.onerror = failed; it.src = `http://${address}/x.png`; }),
    script: () => new Promise((done, failed) => { const it = document.createElement('script'); it.onload = done; it.onerror = failed; it.src = `http://${address}/x.js`; document.head.append(it); }),
    style: () => new Promise((done, failed) => { const it = document.createElement('link'); it.rel = 'stylesheet'; it.onload = done; it.onerror = failed; it.href = `http://${address}/x.css`; document.head.append(it); }),
    socket: () => new Promise((done, failed) => { const it = new WebSocket(`ws://${address}/`); it.onopen = done; it.onerror = failed; }),
    beacon: () => told(() => navigator.sendBeacon(`http://${address}/`, 'x')),
    frame: () => told(() => { const it = document.createElement('iframe'); it.src = `http://${address}/`; document.body.append(it); }),
  };
  const went = [];
  for (const [name, act] of Object.entries(tries)) await Promise.resolve().then(act).then(() => went.push(name), () => {});
  return went;
}"""
# by which a script could send: requests, connections, and addresses that the page is left for
SENDS = re.compile(r"\b(?:fetch|XMLHttpRequest|WebSocket|EventSource|WebTransport|RTC\w+|sendBeacon|importScripts|open)\b *\(|\b(?:location|href|src|action) *=[^=]|\blocation\.(?:assign|replace)")
INJECT = """async () => {
  const put = (tag, more) => { const it = Object.assign(document.createElement(tag), more); document.body.append(it); return it; };
  const tries = {
    handler: () => { document.body.insertAdjacentHTML('beforeend', '<button onclick="injected()">'); document.body.lastChild.click(); },
    script: () => put('script', { textContent: 'injected()' }),
    'script from a blob': () => put('script', { src: URL.createObjectURL(new Blob(['injected()'])) }),
    'script from an address': () => put('script', { src: 'data:text/javascript,injected()' }),
    link: () => put('a', { href: 'javascript:injected()' }).click(),
    'text that is evaluated': () => setTimeout('injected()'),
    style: () => { put('style', { textContent: '#files { --injected: 1; }' }); if (getComputedStyle(document.getElementById('files')).getPropertyValue('--injected')) injected(); },
  };
  const ran = [];
  for (const [name, act] of Object.entries(tries)) {
    await new Promise((done) => {
      globalThis.injected = () => { ran.push(name); done(); };
      addEventListener('securitypolicyviolation', done, { once: true });
      act();
    });
  }
  return [ran, Object.keys(tries)];
}"""


def full(bench):
    """A page on which everything is shown: an entry, a refused pair and the downloads."""
    page = bench.page()
    bench.drop(page, *bench.plan("some-refused", CROSSING_START, CROSSING_STEP, CROSSING_PAIRS + bytes(4)))
    return page


def elements(bench):
    page = full(bench)
    for it in IDS:
        same(f"elements with the id {it}", page.evaluate("(id) => document.querySelectorAll('#' + CSS.escape(id)).length", it), 1)
    same("the role of #state", page.evaluate("document.getElementById('state').getAttribute('role')"), "status")
    same("what is told as it comes", page.evaluate("[...document.querySelectorAll('[aria-live=polite]')].map((it) => it.id)"), ["state", "outcome"])
    same("the languages", page.evaluate("document.documentElement.lang"), "en")
    holds("the page has no title", page.evaluate("document.title"))
    bench.close(page)


def keyboard(bench):
    """Tab goes through every control, and back to the first."""
    page = full(bench)
    controls = page.evaluate(CONTROLS)
    page.evaluate("document.activeElement.blur()")
    seen = []
    for _ in range(len(controls) + 40):
        page.press("Tab")
        at = page.evaluate(FOCUSED)
        if at in seen:
            break
        if at is not None:
            seen.append(at)
            holds(f"where the focus is on {at} is not seen", page.evaluate(OUTLINE) != "none")
    for it in ("#files", "#example", "#step", "#play", "#entries button", "#downloads a[download='report.txt']"):
        holds(f"{it} cannot be reached by keyboard", page.evaluate("(s) => document.querySelector(s).matches('[data-walk]')", it))
    missed = [it for n, it in enumerate(controls) if str(n) not in seen]
    same("what Tab does not reach", missed, [])
    holds(f"there are hardly any controls: {controls}", len(controls) > 10)
    bench.close(page)
    # from the first key to the report, with no mouse
    page = bench.page()
    page.evaluate("document.activeElement.blur()")
    for _ in range(20):
        page.press("Tab")
        if page.evaluate("document.activeElement.id") == "example":
            break
    bench.finish(page, lambda: page.press("Enter"))
    bench.close(page)
    return f"{len(controls)} controls"


def contrast(bench):
    """Each text stands out from its ground, in light and in dark colours: where all went well, where an entry is chosen, and at a fault."""
    for scheme in ("light", "dark"):
        page = full(bench)
        page.call("Emulation.setEmulatedMedia", features=[{"name": "prefers-color-scheme", "value": scheme}])
        page.evaluate("document.querySelector('details').open = true; document.querySelector('#entries button').click()")
        bench.settled(page)
        same(f"faint texts in {scheme} colours", page.evaluate(FAINT), [])
        bench.choose(page, *bench.frames("fault", CROSSING_START.replace("v 1 1 1", "v 1 x 1"), CROSSING_END))
        bench.settled(page)
        same(f"faint texts of a fault in {scheme} colours", page.evaluate(FAINT), [])
        bench.close(page)


def names(bench):
    """Every control has a name for a screen reader."""
    page = full(bench)
    page.call("Accessibility.enable")
    nodes = page.call("Accessibility.getFullAXTree")["nodes"]
    value = lambda node, key: node.get(key, {}).get("value", "")
    shown = [it for it in nodes if not it.get("ignored")]
    nameless = [value(it, "role") for it in shown if value(it, "role").lower() in {r.lower() for r in MUST_HAVE_NAMES} and not value(it, "name").strip()]
    same("controls without a name", nameless, [])
    roles = [value(it, "role") for it in shown]
    for role in ("button", "slider", "link", "status", "heading", "list", "main"):
        holds(f"nothing has the role {role}: {sorted(set(roles))}", role in roles)
    pressed = [it for it in shown if value(it, "role") == "button" and any(p["name"] == "pressed" for p in it.get("properties", []))]
    entries = page.evaluate("document.querySelectorAll('#entries button').length")
    holds(f"of {entries} entries {len(pressed)} tell whether they are chosen", len(pressed) >= entries > 0)
    slider = next(it for it in shown if value(it, "role") == "slider")
    holds("the slider does not tell where it stands", value(slider, "value") != "" or value(slider, "name"))
    page.call("Accessibility.disable")
    bench.close(page)
    return f"{len(shown)} nodes"


def network(bench):
    """The policy refuses what would fetch or frame: whatever is tried, nothing arrives."""
    page = bench.page()
    bench.listener.requests()
    same("what went out of the page", page.evaluate(REACH, bench.listener.address), [])
    in_worker = """(address) => new Promise((done) => {
      const url = URL.createObjectURL(new Blob([`fetch('http://${address}/').then(() => postMessage('went'), () => postMessage('not'))`]));
      const worker = new Worker(url); worker.onmessage = ({ data }) => done(data); worker.onerror = () => done('not'); })"""
    same("a request of a worker", page.evaluate(in_worker, bench.listener.address), "not")
    page.until("the content policy says what it refused", lambda: any("Content Security Policy" in it for it in page.errors))
    # a page without the policy gets out; when that has arrived, so would have what was asked before
    other = bench.browser.open(bench.file("open.html", "<!doctype html><title>open</title>"))
    other.evaluate("(address) => { fetch(`http://${address}/open`, { mode: 'no-cors' }).catch(() => 0); }", bench.listener.address)
    arrived = other.until("a page without a policy reaches the port", bench.listener.requests)
    other.close()
    same("what arrived", arrived, ["GET /open HTTP/1.1"])
    page.asked.clear()
    page.errors.clear()
    bench.close(page)
    text = re.sub(r"[A-Za-z0-9+/=]{200,}", "", bench.html.read_text())
    same("addresses in the page", re.findall(r"(?:https?|wss?|ftp)://[^'\"` <]*", text), [])
    same("what in it could send", SENDS.findall(text), [])
    same("what it links to", re.findall(r"<(?:link|iframe|object|embed|base|form|img)\b[^>]*|<[^>]*\bsrc=[^>]*", text), [])


def injected(bench):
    """What is put into the page, handlers and scripts and a style, does not run: the policy names those that do."""
    page = bench.page()
    ran, tries = page.evaluate(f"({INJECT})()")
    same("what ran", ran, [])
    page.until("the content policy says what it refused", lambda: len(page.errors) >= len(tries))
    page.errors.clear()
    bench.close(page)
    # without a policy all of it runs, so it would be seen
    open_page = re.sub(r'<meta http-equiv="Content-Security-Policy"[^>]*>', "", bench.html.read_text())
    page = bench.page(html=bench.file("no-policy.html", open_page))
    same("what runs without a policy", page.evaluate(f"({INJECT})()")[0], tries)
    page.asked.clear()
    page.errors.clear()
    bench.close(page)
    return f"{len(tries)} ways"


def nothing_stored(bench):
    page = full(bench)
    same("what is stored", page.evaluate(KEPT), [0, 0, 0, ""])
    bench.close(page)


def downloads(bench):
    """The files that are saved have the right bytes."""
    page = bench.page()
    start, end = full_lists(bench)
    bench.drop(page, start, end)
    to = bench.work / "downloads"
    to.mkdir(exist_ok=True)
    bench.browser.call("Browser.setDownloadBehavior", behavior="allow", downloadPath=str(to))
    report, _ = bench.inspected(start, end)
    pairs = b"".join(bytes((a, 0, b, 0)) for a in range(12) for b in range(a + 1, 12))
    wanted = {"report.txt": report.encode(), "step.bin": bytes(36), "pairs.bin": pairs, "refused.bin": pairs[-40:]}
    links = page.evaluate("[...document.querySelectorAll('#downloads a')].map((it) => it.download)")
    same("the links", sorted(links), sorted(wanted))
    for name, bytes_ in wanted.items():
        page.evaluate("(name) => [...document.querySelectorAll('#downloads a')].find((it) => it.download === name).click()", name)
        saved(page, to / name, bytes_)
    # of the example's step
    bench.example(page)
    same("the links", sorted(page.evaluate("[...document.querySelectorAll('#downloads a')].map((it) => it.download)")), ["pairs.bin", "report.txt", "step.bin"])
    for name in ("step.bin", "pairs.bin"):
        (to / name).unlink()
        page.evaluate("(name) => [...document.querySelectorAll('#downloads a')].find((it) => it.download === name).click()", name)
        saved(page, to / name, (EXAMPLE / name).read_bytes())
    bench.close(page)


def saved(page, path, wanted):
    try:
        page.until(f"{path.name} is saved", lambda: path.exists() and path.read_bytes() == wanted)
    except Fault:
        same(f"the saved {path.name}", path.read_bytes() if path.exists() else None, wanted)


def stopped(bench):
    """A run over a million pairs is stopped, and the page works on."""
    page = bench.page()
    page.choose_files("#files", long_run(bench))
    page.wait("document.getElementById('state').textContent.startsWith('Inspecting ')")
    holds("there is no button to stop", bench.seen(page, "#stop"))
    bench.drawn(page, 3)
    same("the state of a page that is drawn while it works", bench.state(page), "working")
    page.evaluate("document.getElementById('stop').focus()")
    page.press("Enter")
    page.wait("document.body.dataset.state === 'stopped'")
    holds("the button to stop is still shown", not bench.seen(page, "#stop"))
    bench.shows_nothing(page)
    same("what has the focus", page.evaluate("document.activeElement.id"), "state")
    start, end = bench.frames("crossing", CROSSING_START, CROSSING_END)
    bench.choose(page, start, end)
    same("the report after a stop", bench.text(page, "#report"), bench.inspected(start, end)[0])
    bench.close(page)


def small_screen(bench):
    """On a narrow screen nothing is cut off, also where the counts are large, and the picture is still there."""
    page = bench.page()
    page.call("Emulation.setDeviceMetricsOverride", width=320, height=640, deviceScaleFactor=1, mobile=False)
    bench.drop(page, *bench.plan("some-refused", CROSSING_START, CROSSING_STEP, CROSSING_PAIRS + bytes(4)))
    bench.still(page)
    page.evaluate("document.querySelectorAll('#counts td').forEach((it) => { it.textContent = '8,999,999'; })")
    wide = page.evaluate("document.scrollingElement.scrollWidth")
    holds(f"the page is {wide} wide on a screen of 320", wide <= 320)
    _, _, width, height = page.box("#view")
    holds(f"the picture is {width:.0f} by {height:.0f}", width > 200 and height > 200)
    bench.close(page)


tests = [
    ("the page's elements", elements),
    ("everything by keyboard", keyboard),
    ("names for a screen reader", names),
    ("texts stand out", contrast),
    ("nothing asked of the network", network),
    ("nothing injected runs", injected),
    ("nothing stored", nothing_stored),
    ("downloads", downloads),
    ("a run that is stopped", stopped),
    ("a narrow screen", small_screen),
]
