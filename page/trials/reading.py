"""Cases: what a screen is to a reader: widths, contrast, keys, names, print, Today that renews itself."""

import time

from books import LEE

SCREENS = ("/", "/account/100", "/account/101", "/trade/3", "/orders", "/market", "/brokers", "/reports", "/report/trades", "/customer/11",
           "/account/110/XYZ", "/find?q=lee", "/row/order?ACCOUNT=100", "/statement/100", "/confirmation/3", "/nowhere", "/security/XYZ", "/batch/PENDING")
CONTRAST = """(() => {
    const light = (text) => { const [r, g, b, a] = text.match(/[\\d.]+/g).map(Number); return { r, g, b, a: a ?? 1 }; };
    const lum = ({ r, g, b }) => { const [x, y, z] = [r, g, b].map((v) => (v /= 255) <= 0.03928 ? v / 12.92 : ((v + 0.055) / 1.055) ** 2.4);
        return 0.2126 * x + 0.7152 * y + 0.0722 * z; };
    const over = (top, under) => ({ r: top.r * top.a + under.r * (1 - top.a), g: top.g * top.a + under.g * (1 - top.a), b: top.b * top.a + under.b * (1 - top.a), a: 1 });
    const back = (node) => { const all = []; for (let at = node; at; at = at.parentElement) all.push(light(getComputedStyle(at).backgroundColor));
        return all.reverse().reduce((under, top) => over(top, under), { r: 255, g: 255, b: 255, a: 1 }); };
    const worst = [];
    for (const node of document.querySelectorAll("body *")) {
        if (![...node.childNodes].some((it) => it.nodeType === 3 && it.data.trim())) continue;
        const box = node.getBoundingClientRect(), style = getComputedStyle(node);
        if (!box.width || style.visibility === "hidden" || box.right < 0) continue;
        const behind = back(node), ink = over(light(node.closest("svg") ? style.fill : style.color), behind);
        const [one, two] = [lum(ink), lum(behind)].sort((a, b) => b - a);
        const ratio = (one + 0.05) / (two + 0.05);
        if (ratio < 4.5) worst.push(`${node.tagName} ${node.textContent.trim().slice(0, 20)} ${ratio.toFixed(2)}`);
    }
    return worst.slice(0, 3);
})()"""


def widths(trial):
    """No screen overflows sideways; each text has its contrast, by day and at night."""
    for scheme in ("light", "dark"):
        trial.tab.call("Emulation.setEmulatedMedia", features=[{"name": "prefers-color-scheme", "value": scheme}])
        for width in (1600, 360):
            trial.tab.resize(width, 1000)
            for path in SCREENS if scheme == "light" else SCREENS[:6]:
                trial.show(path)
                wide = trial.tab.evaluate("document.documentElement.scrollWidth")
                trial.tell(f"{scheme}, {width}: {path} does not overflow", wide <= width)
                trial.tell(f"{scheme}, {width}: {path} has a contrast of 4.5", trial.tab.evaluate(CONTRAST), [])
                if path in SCREENS[:4]:
                    trial.picture(f"{scheme}-{width}-{path.strip('/').replace('/', '-') or 'today'}")
    trial.tab.call("Emulation.setEmulatedMedia", features=[])


def small(trial):
    """Wrong number 2, and the order of a row at 360 pixels."""
    trial.tab.resize(360, 800)
    trial.show("/row/order?ACCOUNT=100&TYPE=TMS&SYMBOL=ABC&QTY=21&PRICE=&CASH=cash&END=fifo&PERSON=Ann%09Lee%09T10&step=2")
    cut = trial.tab.evaluate("""[...document.querySelectorAll(".estimate td, .effect td")].filter((cell) =>
        cell.getBoundingClientRect().right > innerWidth || cell.scrollWidth > cell.clientWidth + 1).length""")
    cells = trial.tab.evaluate("document.querySelectorAll('.estimate td').length")
    trial.tell("wrong number 2: no amount of an estimate is cut at 360 pixels", (cut, cells > 4), (0, True))
    trial.show("/account/100")
    places = trial.tab.evaluate("""(() => { const row = document.querySelector("#cash tbody tr"), at = (kind) =>
        Math.min(...[...row.querySelectorAll("td." + kind)].map((cell) => cell.getBoundingClientRect().top));
        return [at("money"), at("note")]; })()""")
    trial.tell("amounts come before notes", places[0] <= places[1])
    hidden = trial.tab.evaluate("getComputedStyle(document.querySelector('nav')).display")
    trial.tab.click(".menu summary")
    trial.tell("the navigation is behind one button", (hidden, trial.tab.evaluate("getComputedStyle(document.querySelector('nav')).display") != "none"), ("none", True))
    trial.tab.resize(1600, 1000)


def keys(trial):
    """`/` leads to the field, and any result is within 30 tab stops; arrows lead through a table."""
    trial.show("/orders")
    trial.tab.press("/")
    trial.tell("the key / leads to the field", trial.tab.evaluate("document.activeElement?.name"), "q")
    trial.tab.call("Input.insertText", text="lee")
    trial.tab.press("Enter")
    trial.tab.wait("location.pathname === '/find' && document.querySelector('.found a')")
    for path, selector in (("/find?q=lee", ".found a"), ("/orders", "#orders tbody a"), ("/account/100", "#cash tbody a"), ("/report/trades", "#rows tbody a"), ("/", "#below tbody a")):
        trial.show(path)
        stops, last = 0, trial.tab.evaluate(f"document.querySelectorAll('{selector}').length")
        trial.tab.evaluate("document.body.focus()")
        while not trial.tab.evaluate(f"document.activeElement?.matches('{selector}') ?? false") and stops < 60:
            trial.tab.press("Tab")
            stops += 1
        trial.tell(f"{path}: a result within 30 tab stops ({stops})", stops <= 30)
        trial.tab.call("Input.dispatchKeyEvent", type="rawKeyDown", key="End", windowsVirtualKeyCode=35)
        where = trial.tab.evaluate(f"[...document.querySelectorAll('{selector}')].indexOf(document.activeElement)")
        trial.tell(f"{path}: and one key to the last of {last}", where >= 0 and where > last - 8)


def named(trial):
    """Each field and button has a name; each table its heads."""
    for path in SCREENS:
        trial.show(path)
        nameless = trial.tab.evaluate("""[...document.querySelectorAll("input:not([type=hidden]), select, button, a")].filter((it) =>
            !(it.ariaLabel || it.labels?.length || it.textContent.trim())).length""")
        trial.tell(f"{path}: each field has a name", nameless, 0)


def printed(trial):
    trial.tab.call("Emulation.setEmulatedMedia", media="print")
    trial.show("/statement/100")
    shown = trial.tab.evaluate("[...document.querySelectorAll('header, .options, button')].filter((it) => it.offsetParent).length")
    head = trial.tab.evaluate("document.querySelector('.sheet thead').innerText")
    trial.tell("on paper: no navigation, no buttons", shown, 0)
    trial.tell("on paper: name and account are the head of each page", "Ann Lee" in head and "account 100" in head
               and trial.tab.evaluate("getComputedStyle(document.querySelector('.sheet thead')).display") == "table-header-group")
    trial.tab.call("Emulation.setEmulatedMedia", media="")


def renews(trial):
    """Today renews itself within 15 s and marks what is new; its age counts."""
    trial.show("/")
    trade = trial.other("order", "100", "TMB", "ABC", "23", "", "cash", "fifo", *LEE)[1]
    begun = time.monotonic()
    trial.tab.wait(f"[...document.querySelectorAll('#submitted tr.new')].some((row) => row.dataset.key === '{trade}')", 30)
    trial.tell("a new order is on Today within 21 s, and marked", time.monotonic() - begun < 21)
    trial.tell("the age of the snapshot is in the head", trial.tab.evaluate("/ago|now/.test(document.querySelector('.age').textContent)"))


def plots(trial):
    """Plots are SVG whose amounts a test can read."""
    trial.show("/account/100")
    spots = trial.tab.evaluate("[...document.querySelectorAll('svg.plot .spot')].map((it) => Number(it.dataset.cents))")
    balance = trial.tab.evaluate("document.querySelector('.heads dd').innerText")
    trial.tell("the plot of an account ends at its balance", spots[-1], int(balance.replace(",", "").replace(".", "")))
    trial.show("/")
    rungs = trial.tab.evaluate("[...document.querySelectorAll('#due rect')].map((it) => [it.dataset.day, it.dataset.cents])")
    trial.tell("the ladder has today and the days after", len({day for day, _ in rungs}) >= 3)


PARTS = (widths, small, keys, named, printed, renews, plots)
