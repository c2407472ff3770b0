"""Cases: find, tiles, links to the page, its addresses, and what is refused when it connects."""
from __future__ import annotations

import contextlib
import tempfile
import time
import urllib.parse
from collections.abc import Iterator

from lib.browser import browser
from lib.cases import TOP, case_if, want
from lib.fake_rooms import FakeRoom
from lib.map_pages import connect, opened, url_of
from lib.others import chromium, is_there
from lib.page_files import PageFiles
from lib.programs import run
from lib.talk import serving
from page_cases.opening import a_node, base_of, browsing, is_ready, page_case, pages, village


@page_case
def find_what_is_there() -> None:
    """Find has towns first, says how many there are, and shows more of them. It knows a name that another gives."""
    rows = [a_node(number, 47.6 + number / 1e4, 8.2, shop="bakery", name=f"Rome {number}") for number in range(1, 80)]
    rows.append(a_node(90, 47.65, 8.2, place="town", name="New Rome"))
    with pages("anna", rows=rows) as (_, zoe, anna):
        anna.fill("#find", "rome")
        anna.wait_text("#found-count", "50 of 80 found")
        want(anna.get("$('found').firstChild.textContent"), "New Rome, town n90")
        anna.click("#found button", "Show 30 more")
        anna.wait_text("#found-count", "80 found")
        zoe.ask({"id": 2, "do": "retag", "el": "n90", "tags": {"name": "Rome Nova"}})
        anna.wait("$('found').firstChild.textContent === 'Rome Nova, town n90'")
        anna.click("#found button", "Rome Nova")
        anna.wait("Math.abs(page.view.map.getCenter().lat - 47.65) < 0.001")
        anna.get("page.panels.tags.complete($('selected').querySelector('input'), 'keys', { key: '' })")
        want("shop" in anna.get("[...$('keys').options].map(({ value }) => value)"), True)


@page_case
def find_an_address() -> None:
    """Find knows addresses: the one that is typed comes first, and Enter goes there."""
    address = {"addr:street": "Mill Lane"}
    rows = [
        *(
            a_node(number, 47.6, 8.2 + number / 1e4, **address, **{"addr:housenumber": str(number)})
            for number in (12, 22)
        ),
        a_node(30, 47.65, 8.2, **address, **{"addr:housenumber": "2"}),
        a_node(40, 47.6, 8.3, name="Mill Lane 2 b"),
    ]
    with pages("anna", rows=rows) as (_, zoe, anna):
        found = "[...$('found').children].map((each) => each.textContent)"
        anna.fill("#find", "mill lane 2")
        want(
            anna.get(found),
            [f"Mill Lane {house}" for house in ("2, address n30", "22, address n22")] + ["Mill Lane 2 b, node n40"],
        )
        anna.press("Enter")
        anna.wait("page.selected[0] === 'n30' && Math.abs(page.view.map.getCenter().lat - 47.65) < 0.001")
        zoe.ask({"id": 2, "do": "retag", "el": "n12", "tags": {"addr:street": "Elm Road"}})
        anna.wait("page.session.room.seq === 1")
        anna.fill("#find", "Elm road 12")
        want(anna.get(found), ["Elm Road 12, address n12"])
        anna.fill("#find", "nowhere")
        anna.press("Enter")
        want(anna.get("page.selected"), ["n30"])


@page_case
def keys_that_every_object_has() -> None:
    """A tag whose key is the name of something that every object of JavaScript has is a tag like others."""
    with pages("anna", rows=[a_node(1, 47.6, 8.2), a_node(2, 47.6, 8.3, shop="bakery")]) as (_, _, anna):
        anna.get("page.select('n1')")
        for key in ("constructor", "__proto__", "toString"):
            anna.get(f"page.panels.tags.complete($('selected').querySelector('input'), 'values', {{ key: '{key}' }})")
            want(anna.get("$('values').options.length"), 0)
            anna.fill("#selected .tag:last-child input", key)
            anna.fill("#selected .tag:last-child input:nth-child(2)", "brick")
            anna.click("#selected button", "Save tags")
            anna.wait(f"Object.hasOwn(page.elements.get('n1').tags, '{key}')")
            anna.wait_text("#saved", "All saved")
        want(anna.get("Object.entries(page.elements.get('n1').tags).length"), 3)


@page_case
def tiles_and_credit() -> None:
    """There are no tiles until somebody chooses them; the data's credit is always there, the tiles' with them."""
    with serving(workers=2, sessions=9, base=base_of(village())) as server, browsing() as (files, chrome):
        anna = connect(opened(chrome, url_of(files, server.port, "anna")))
        credit = "document.querySelector('.leaflet-control-attribution').textContent"
        want((anna.get(credit), files.asked), ("© OpenStreetMap contributors", []))
        want(anna.get("Boolean(document.querySelector('.leaflet-control-scale'))"), True)
        anna.get("(() => { $('tiles-choice').value = 'own'; $('tiles-choice').onchange(); })()")
        for _ in range(2):
            anna.fill("#tiles-url", f"{files.url}/tiles/")
            anna.click("#tiles button", "Show tiles")
        faults = "[...document.querySelectorAll('#tiles .fault')].map((each) => each.textContent)"
        want(anna.get(faults), ["The address of tiles has {z}, {x} and {y} in it."])
        anna.fill("#tiles-url", f"{files.url}/tiles/{{z}}/{{x}}/{{y}}.png")
        want((anna.get(faults), anna.get("$('tiles-url').ariaInvalid")), ([], None))
        anna.fill("#tiles-credit", "<b>Painter</b>")
        anna.click("#tiles button", "Show tiles")
        anna.wait("document.querySelectorAll('.leaflet-tile-loaded').length > 3")
        want("<b>Painter</b>" in anna.get(credit), True)
        want(len(files.asked) > 3, True)
        anna.get("(() => { $('tiles-choice').value = '0'; $('tiles-choice').onchange(); })()")
        anna.wait("document.querySelectorAll('.leaflet-tile').length === 0")
        want(anna.get(credit), "© OpenStreetMap contributors")
        tiles = f"{files.url}/tiles/{{z}}/{{x}}/{{y}}.png"
        page = opened(chrome, url_of(files, server.port, "bob", tiles=tiles, credit="Me"))
        page.wait("document.querySelectorAll('.leaflet-tile-loaded').length > 0")
        want("Me" in page.get(credit), True)
        anna.end()


@page_case
def without_leaflet() -> None:
    """If Leaflet is nowhere, one sentence says so."""
    nowhere = "--host-resolver-rules=MAP * ~NOTFOUND, EXCLUDE 127.0.0.1"
    with PageFiles(has_leaflet=False) as files, browser(chromium(), nowhere) as chrome:
        page = chrome.open(url_of(files, 9, "anna"))
        page.wait_text("#message.refused", "Leaflet is neither beside it")
        want(page.get("$('connect').disabled"), True)


@page_case
def what_is_refused_at_the_door() -> None:
    """A room that is not there, addresses that are none, a server that is not there, and what a proxy refuses each
    have a sentence of their own."""
    statuses = {"/wrong": 404, "/secret": 401, "/full": 429, "/ending": 502}
    with PageFiles(statuses=statuses) as files, browser(chromium()) as chrome, serving(
        workers=2, sessions=9, base=base_of(village())
    ) as server:
        page = opened(chrome, url_of(files, server.port, "anna", "rome"))
        page.click("#connect")
        page.wait_text("#said", "The server has no room of this name.")
        host = files.url.removeprefix("http://")
        told = {
            "elsewhere": ("#said", "has to begin with ws://"),
            "ws://127.0.0.1:90001": ("#said", "The address is invalid. Look at its host and its port."),
            "ws://127.0.0 .1:9001": ("#said", "The address is invalid."),
            f"ws://{host}/wrong": ("#state", "has no room at this path"),
            f"ws://{host}/secret": ("#state", "wants a name and a password"),
            f"ws://{host}/full": ("#state", "as many connections from your network as it allows"),
            f"ws://{host}/ending": ("#state", "cannot reach its maproom server"),
            "ws://127.0.0.1:9/": (
                "#state",
                "No room answers at 127.0.0.1:9: there is no server, or it lets in " "only its own page.",
            ),
        }
        for address, (where, text) in told.items():
            page.fill("#address", address)
            page.click("#connect", "Connect")
            page.wait_text(where, text)
            if where == "#state":
                page.click("#connect", "Stop")
        page.get("window.fetch = () => new Promise((_, fail) => (window.answer = fail))")
        page.click("#connect", "Connect")
        page.wait("window.answer")
        page.click("#connect", "Stop")
        page.get("answer(new TypeError('failed')), new Promise((done) => setTimeout(done, 100))")
        want(page.get("['state', 'connect'].map((id) => $(id).textContent)"), ["Not connected", "Connect"])
        page.fill("#address", f"ws://127.0.0.1:{server.port}")
        page.fill("#room", "paris")
        connect(page)
        page.click("#leave")
        page.wait_text("#state", "Not connected")
        page.end()


# Keeps what the page would copy, and what it would ask.
COPY = "Object.defineProperty(navigator, 'clipboard', { value: { writeText: (text) => (window.copied = text) } }), 0"

# What Share says of a link that works elsewhere.
FOR_ALL = "It fills in the address and the room; everybody gives a name of their own."


@page_case
def a_link_that_works_here_alone() -> None:
    """Share copies the link in any case. If it works on this computer alone, the page says so, and why: the page is a
    file or comes from this computer, or the address of the server means this computer."""
    far = ("maps.example.org", "192.0.2.7")
    rules = ", ".join(f"MAP {host} 127.0.0.1" for host in far)
    with contextlib.ExitStack() as kept:
        files = kept.enter_context(PageFiles())
        # A browser says `null` of a page that was opened as a file.
        origins = ("--origin", "null", "--origin", f"http://maps.example.org:{files.port}")
        server = kept.enter_context(serving(workers=4, sessions=20, base=base_of(village()), options=origins))
        chrome = kept.enter_context(browser(chromium(), f"--host-resolver-rules={rules}"))
        fields = urllib.parse.urlencode({"address": f"ws://localhost:{server.port}", "room": "paris", "name": "anna"})
        here = f"http://localhost:{files.port}/?{fields}"
        there = f"http://maps.example.org:{files.port}/?{fields}"
        of_server = f"the server's address is localhost:{server.port}."
        for url, why in (
            (f"file://{TOP}/clients/page/map.html?{fields}", f"you opened the page as a file and {of_server}"),
            (here, f"the page comes from localhost:{files.port} and {of_server}"),
            (there, of_server),
        ):
            page = opened(chrome, url)
            page.get(COPY)
            connect(page).click("#share")
            page.wait_text("#said", f"The link is copied. It works only on this computer, because {why}")
            want(page.get("copied"), page.get("page.link()"))
            page.end()
        want(
            [
                page.get(f"whyOnlyHere('{address}').length")
                for address in (
                    "wss://maps.example.org/paris",
                    "ws://192.0.2.7:9001",
                    "ws://127.0.0.53:9001",
                    "ws://[::1]:9001",
                )
            ],
            [0, 0, 1, 1],
        )
        page = opened(chrome, there)
        page.get(f"{COPY}, $('address').value = 'ws://192.0.2.7:{server.port}'")
        connect(page).click("#share")
        page.wait_text("#said", f"The link is copied. {FOR_ALL}")
        page.get("navigator.clipboard.writeText = () => Promise.reject()")
        page.get("window.prompt = (text) => (window.asked = text), 0")
        page.click("#share")
        page.wait("window.asked")
        want(page.get("asked"), f"Copy this link. {FOR_ALL}")
        page.end()


@page_case
def a_page_from_a_file() -> None:
    """Opened as a file the page works, with Leaflet of the system, if the server lets such pages in. It says what a
    server that refuses it wants."""
    with PageFiles(statuses={"/hamlet": 403}) as files, browser(chromium()) as chrome, serving(
        workers=2, sessions=9, base=base_of(village()), options=("--origin", "null")
    ) as server:
        fields = {"address": f"ws://127.0.0.1:{server.port}", "room": "paris", "name": "anna"}
        page = opened(chrome, f"file://{TOP}/clients/page/map.html?{urllib.parse.urlencode(fields)}")
        connect(page)
        want(page.get("page.elements.size"), len(village()))
        page.click("#leave")
        page.fill("#address", f"{files.url.replace('http', 'ws')}/hamlet")
        page.click("#connect", "Connect")
        page.wait_text("#state", "since the page was opened as a file")


tls_case = case_if(lambda: is_ready() and is_there("openssl", "version"))


@contextlib.contextmanager
def a_certificate() -> Iterator[tuple[str, str]]:
    """The files of a key and of a certificate that nobody vouches for."""
    with tempfile.TemporaryDirectory() as folder:
        key, certificate = f"{folder}/key.pem", f"{folder}/certificate.pem"
        words = ["-x509", "-newkey", "rsa:2048", "-nodes", "-days", "2", "-subj", "/CN=127.0.0.1"]
        want(run("openssl", "req", *words, "-keyout", key, "-out", certificate).status, 0)
        yield key, certificate


@tls_case
def a_leaflet_with_another_checksum() -> None:
    """What another place hands out as Leaflet is not run if it is not what the page expects."""
    with a_certificate() as names, PageFiles() as far, PageFiles(has_leaflet=False) as files:
        far.use_tls(*names)
        to_far = f"--host-resolver-rules=MAP unpkg.com:443 127.0.0.1:{far.port}"
        with browser(chromium(), "--ignore-certificate-errors", to_far) as chrome:
            page = chrome.open(url_of(files, 9, "anna"))
            page.wait_text("#message.refused", "Leaflet is neither beside it")
            want(page.get("typeof L"), "undefined")
            want(page.get("fetch('https://unpkg.com/leaflet@1.9.4/dist/leaflet.js').then(({ status }) => status)"), 200)


@tls_case
def a_page_from_elsewhere() -> None:
    """If the browser does not say why it cannot reach a host of another site, the page claims nothing, and names the
    page of that host. Of its own host it knows that no server answers."""
    with a_certificate() as names, PageFiles() as far, PageFiles() as files, browser(chromium()) as chrome:
        far.use_tls(*names)
        page = opened(chrome, url_of(files, f"wss://127.0.0.1:{far.port}/paris", "anna"))
        page.click("#connect")
        page.wait_text(
            "#state",
            f"No room answers at 127.0.0.1:{far.port}: there is no server, or it lets in only its "
            f"own page. Perhaps https://127.0.0.1:{far.port}/ is that page.",
        )
        page.click("#connect", "Stop")
        page.get("window.fetch = () => Promise.reject(new TypeError('failed'))")
        host = files.url.removeprefix("http://")
        page.fill("#address", f"ws://{host}/paris")
        page.click("#connect")
        page.wait_text("#state", f"No server answers at {host}.")
        page.end()


@tls_case
def the_address_behind_a_proxy() -> None:
    """From https:// the page asks at the path of the room, where a proxy has it, and not where the page itself is."""
    with a_certificate() as names, serving(workers=2, sessions=9, base=base_of(village())) as server, PageFiles(
        rooms={"/paris": server.port}
    ) as files, browser(chromium(), "--ignore-certificate-errors") as chrome:
        files.use_tls(*names)
        page = opened(chrome, f"{files.url}/?room=hamlet&name=anna")
        want(page.get("$('address').value"), f"wss://127.0.0.1:{files.port}/hamlet")
        page.fill("#room", "paris")
        want(page.get("$('address').value"), f"wss://127.0.0.1:{files.port}/paris")
        connect(page)
        want((page.get("$('state').textContent"), page.get("page.elements.size")), ("Connected", len(village())))
        page.end()


@page_case
def more_than_are_served() -> None:
    """A page that has to wait for a worker says so, and is served once one is free."""
    with serving(workers=1, sessions=9, base=base_of(village())) as server, browsing() as (files, chrome):
        other = server.session("zoe")
        page = opened(chrome, url_of(files, server.port, "anna"))
        page.click("#connect")
        page.wait_text("#state", "Waiting")
        other.leave()
        page.wait_text("#state", "Connected")
        want(page.get("page.elements.size"), len(village()))
        page.end()


@page_case
def a_map_that_takes_long() -> None:
    """A page whose map does not come in time says so, and waits longer at its next attempt, until the map is there."""
    with FakeRoom(village()) as room, browsing() as (files, chrome):
        room.before = lambda message: time.sleep(1.6) if message["do"] == "hello" else None
        page = opened(chrome, url_of(files, room.url, "anna"))
        page.get("Session.heartbeat = 1000")
        page.click("#connect")
        page.wait_text("#state", "The map did not come within 1 second. Trying again")
        page.wait_text("#state", "Connected")
        want(page.get("page.elements.size"), len(village()))
        page.end()
