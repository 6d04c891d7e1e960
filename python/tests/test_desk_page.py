"""The desk's page in Chromium: by keyboard alone, without scripts, and at three widths.

Chromium without a window is steered by its own protocol.
"""
import asyncio
import base64
import json
import re
import subprocess
from collections.abc import AsyncIterator, Iterator
from contextlib import asynccontextmanager
from pathlib import Path
from typing import Any

import pytest
from desks import FORM, MANY_BIDDERS, MANY_RULES, DeskFolder, Served, make_form

aiohttp = pytest.importorskip("aiohttp", reason="aiohttp isn't there")

WIDTHS = (320, 768, 1280)
TAB, ENTER, SPACE = ("Tab", 9, ""), ("Enter", 13, "\r"), (" ", 32, " ")
# how far the page is wider than its window, and what has no name for who can't see it
MEASURE = """JSON.stringify({
  beyond: document.documentElement.scrollWidth - document.documentElement.clientWidth,
  nameless: [...document.querySelectorAll("input:not([type=hidden]), button")].filter(
    (each) => !(each.labels && each.labels.length) && !each.textContent && !each.ariaLabel).length,
  small: [...document.querySelectorAll("button, p")].filter(
    (each) => parseFloat(getComputedStyle(each).fontSize) < 14).length,
})"""


class Tab:
    """A tab of Chromium."""

    def __init__(self, socket: Any) -> None:
        self._socket = socket
        self._count = 0

    async def ask(self, method: str, **parameters: Any) -> dict[str, Any]:
        self._count += 1
        await self._socket.send_json({"id": self._count, "method": method, "params": parameters})
        while True:
            answer: dict[str, Any] = await self._socket.receive_json(timeout=120)
            if answer.get("id") == self._count:
                assert "error" not in answer, answer
                result: dict[str, Any] = answer["result"]
                return result

    async def evaluate(self, text: str) -> Any:
        answer = await self.ask("Runtime.evaluate", expression=text, returnByValue=True)
        return answer["result"].get("value")

    async def wait(self, text: str) -> None:
        """Waits until this holds in the page."""
        for _ in range(6_000):
            if await self.evaluate(text):
                return
            await asyncio.sleep(0.1)
        raise AssertionError((text, await self.evaluate("document.body.innerText")))

    async def press(self, *keys: tuple[str, int, str]) -> None:
        for key, code, text in keys:
            about = {"key": key, "windowsVirtualKeyCode": code, "text": text}
            await self.ask("Input.dispatchKeyEvent", type="keyDown", **about)
            await self.ask(
                "Input.dispatchKeyEvent", type="keyUp", key=key, windowsVirtualKeyCode=code
            )

    async def write(self, text: str) -> None:
        await self.ask("Input.insertText", text=text)

    async def go_to(self, words: str) -> None:
        """Presses Tab until the focus is on what has these words as its text or its label."""
        described = "(document.activeElement.ariaLabel || document.activeElement.textContent || "
        described += "document.activeElement.id).trim()"
        for _ in range(60):
            if await self.evaluate(described) == words:
                return
            await self.press(TAB)
        raise AssertionError(words)

    async def enter(self, served: Served, key: str, heading: str = "Hand in a form") -> None:
        """Opens the page, and enters a key by the keyboard."""
        await self.ask("Page.navigate", url=f"http://127.0.0.1:{served.port}/")
        await self.wait("document.activeElement && document.activeElement.id === 'key'")
        await self.write(key)
        await self.press(ENTER)
        await self.wait(
            f"document.querySelector('h1').textContent === '{heading}' && "
            "document.querySelector('[type=password]') === null"
        )

    async def check_widths(self, folder: Path, name: str) -> None:
        # (the style sheet has come, too)
        await self.wait("document.readyState === 'complete'")
        for width in WIDTHS:
            await self.ask(
                "Emulation.setDeviceMetricsOverride",
                width=width,
                height=900,
                deviceScaleFactor=1,
                mobile=False,
            )
            measured = json.loads(await self.evaluate(MEASURE))
            assert measured == {"beyond": 0, "nameless": 0, "small": 0}, (name, width)
            shot = await self.ask("Page.captureScreenshot", captureBeyondViewport=True)
            (folder / f"{name}-{width}.png").write_bytes(base64.b64decode(shot["data"]))


@asynccontextmanager
async def open_tab(folder: Path) -> AsyncIterator[Tab]:
    words = [
        "chromium",
        "--headless=new",
        "--no-sandbox",
        "--disable-gpu",
        "--disable-dev-shm-usage",
    ]
    words += ["--remote-debugging-port=0", f"--user-data-dir={folder / 'chromium'}", "about:blank"]
    log = folder / "chromium.log"
    with open(log, "wb") as file:
        process = subprocess.Popen(words, stderr=file, stdout=subprocess.DEVNULL)
    try:
        for _ in range(6_000):
            if match := re.search(
                r"DevTools listening on ws://([^/]+)/", log.read_text("utf-8", "replace")
            ):
                break
            await asyncio.sleep(0.1)
        assert match, log.read_text("utf-8", "replace")
        async with aiohttp.ClientSession() as client:
            async with client.get(f"http://{match[1]}/json/list") as reply:
                pages = [each for each in await reply.json() if each["type"] == "page"]
            url = pages[0]["webSocketDebuggerUrl"]
            async with client.ws_connect(url, max_msg_size=0) as socket:
                yield Tab(socket)
    finally:
        process.terminate()
        process.wait(60)


@pytest.fixture
def served(tmp_path: Path) -> Iterator[Served]:
    with DeskFolder(tmp_path).serve() as served:
        yield served


def test_a_bidder_needs_the_keyboard_alone(served: Served, tmp_path: Path) -> None:
    """Two faults beside their cells, then a form that is handed in, then withdrawn."""

    async def check() -> None:
        async with open_tab(tmp_path) as tab:
            await tab.enter(served, served.desk.keys["Alpha", 1])
            await tab.check_widths(tmp_path, "entered")
            await tab.go_to("Amount of bid 1")
            for value in ("30x", "1", "0"):
                await tab.write(value)
                await tab.press(TAB)
            for value in ("50", "3", "y"):
                await tab.write(value)
                await tab.press(TAB)
            await tab.go_to("Hand in these bids")
            await tab.press(ENTER)
            await tab.wait("document.querySelectorAll('.fault').length === 2")
            # (the focus goes to the cell once the page knows what stands)
            await tab.wait("document.activeElement.ariaLabel === 'Amount of bid 1'")
            assert await tab.evaluate("document.activeElement.value") == "30x"
            beside = "document.activeElement.parentElement.querySelector('.fault').textContent"
            assert "'30x' isn't 1 to 18 digits" in await tab.evaluate(beside)
            await tab.check_widths(tmp_path, "faulty")
            assert served.look()["calls_left"] == 1000
            await tab.evaluate("document.activeElement.select()")
            await tab.write("30")
            await tab.go_to("B of bid 2")
            assert "'y' isn't" in await tab.evaluate(beside)
            await tab.write("1")  # (the Tab has marked what was there)
            await tab.go_to("Hand in these bids")
            await tab.press(ENTER)
            await tab.wait("document.querySelector('#answer pre') !== null")
            receipt = await tab.evaluate("document.querySelector('#answer pre').textContent")
            assert "\nbidder Alpha, session 1\nanswer accepted 1\n" in receipt
            await tab.check_widths(tmp_path, "accepted")
            assert served.look()["stands"]["bids"] == 2
            stands = "document.getElementById('stands').textContent"
            await tab.wait(f"{stands}.startsWith('Your form 1 stands: 2 bids')")
            await tab.evaluate("window.confirm = () => true")
            await tab.go_to("Withdraw what stands")
            await tab.press(ENTER)
            await tab.wait(
                "document.getElementById('stands').textContent === 'No form of yours stands.'"
            )
            assert served.look()["stands"] is None

    asyncio.run(check())


def test_an_upload_needs_no_scripts(served: Served, tmp_path: Path) -> None:
    """The number that stands is in a hidden field: an older page is stale."""
    form = tmp_path / "form.csv"
    form.write_bytes(FORM)

    async def hand_in(tab: Tab) -> str:
        document = await tab.ask("DOM.getDocument")
        root = document["root"]["nodeId"]
        node = await tab.ask("DOM.querySelector", nodeId=root, selector="#file")
        await tab.ask("DOM.setFileInputFiles", nodeId=node["nodeId"], files=[str(form)])
        await tab.go_to("Hand in")
        await tab.evaluate("document.body.id = 'before'")
        await tab.press(ENTER)
        await tab.wait("document.querySelector('body:not([id]) #answer h2') !== null")
        return str(await tab.evaluate("document.getElementById('answer').innerText"))

    async def check() -> None:
        async with open_tab(tmp_path) as tab:
            await tab.ask("Emulation.setScriptExecutionDisabled", value=True)
            await tab.enter(served, served.desk.keys["Alpha", 1])
            assert await tab.evaluate("document.getElementById('typing').hidden") is True
            assert "answer accepted 1" in await hand_in(tab)
            await tab.check_widths(tmp_path, "unscripted")
            assert served.put(body=b"Alpha,A,B\n31,1,0\n", number=1).status == 200
            form.write_bytes(b"Alpha,A,B\n32,1,0\n")
            assert "Stale" in await hand_in(tab)
            assert served.look()["stands"]["number"] == 2

    asyncio.run(check())


def test_the_offices_page(served: Served, tmp_path: Path) -> None:
    """By the keyboard, too; and the page that asks for a key."""
    served.put()
    served.put("Beta")

    async def check() -> None:
        async with open_tab(tmp_path) as tab:
            await tab.ask("Page.navigate", url=f"http://127.0.0.1:{served.port}/")
            await tab.wait("document.activeElement && document.activeElement.id === 'key'")
            await tab.check_widths(tmp_path, "first")
            await tab.enter(served, served.desk.office, "Who has handed in")
            await tab.check_widths(tmp_path, "office")
            assert "2 of 3 bidders" in await tab.evaluate("document.body.innerText")
            assert served.put("Gamma").status == 200
            await tab.go_to("Look again")
            await tab.press(ENTER)
            await tab.wait("document.body.innerText.includes('3 of 3 bidders')")

    asyncio.run(check())


def post(served: Served, fields: dict[str, Any]) -> tuple[int, str]:
    """What a browser without scripts gets for a form with these fields."""
    return post_all(served, [fields])[0]


def post_all(served: Served, forms: list[dict[str, Any]]) -> list[tuple[int, str]]:
    """What so many browsers get at once."""

    async def call(client: Any, fields: dict[str, Any]) -> tuple[int, str]:
        data = aiohttp.FormData()
        for name, value in fields.items():
            if isinstance(value, bytes):
                data.add_field(name, value, filename="form.csv")
            else:
                data.add_field(name, value)
        async with client.post(f"http://127.0.0.1:{served.port}/", data=data) as reply:
            return reply.status, await reply.text()

    async def call_all() -> list[tuple[int, str]]:
        async with aiohttp.ClientSession(connector=aiohttp.TCPConnector(limit=0)) as client:
            return list(await asyncio.gather(*(call(client, fields) for fields in forms)))

    return asyncio.run(call_all())


def test_many_browsers_without_scripts_at_once(tmp_path: Path) -> None:
    """A bidder may have so many calls in hand, and all together may have more."""
    with DeskFolder(tmp_path, MANY_RULES).serve() as served:
        forms = []
        for name in MANY_BIDDERS:
            send = {"do": "send", "over": "-", "file": make_form(name, 30)}
            keys = [served.desk.keys[name, session] for session in (1, 2, 3)]
            forms += [{**send, "key": key} for key in keys * 3]
        answers = post_all(served, forms)
        assert len(answers) == 180
        assert {status for status, _ in answers} == {200}
        assert sum("Accepted as number 1" in text for _, text in answers) == 20


def test_the_pages_forms_without_a_browser(served: Served) -> None:
    """What is shown is escaped, the office gets its own page, and a wrong key nothing."""
    key, office = served.desk.keys["Alpha", 1], served.desk.office
    status, text = post(served, {"key": "x", "do": "look"})
    assert status == 401 and "This key isn&#39;t known." in text and "stands" not in text
    send = {"key": key, "do": "send", "over": "-"}
    status, text = post(served, {**send, "file": b"Alpha,A,B\n<b>,1,0\n"})
    assert status == 422 and "&lt;b&gt;" in text and "<b>" not in text
    status, text = post(served, {**send, "file": FORM})
    assert status == 200 and "answer accepted 1" in text
    status, text = post(served, {**send, "file": FORM, "do": "check"})
    assert status == 200 and "Nothing is wrong" in text
    status, text = post(served, {**send, "file": b"Alpha,A,B\n", "over": "1", "empty": "yes"})
    assert status == 200 and "answer accepted 2" in text
    status, text = post(served, {**send, "do": "withdraw", "over": "2"})
    assert status == 200 and "No form of yours stands." in text
    status, text = post(served, {"key": office, "do": "look"})
    assert status == 200 and "0 of 3 bidders have a form that stands" in text
    page = served.call("GET", "/")
    assert page.headers["Cache-Control"] == "no-store"
    assert "default-src 'none'" in page.headers["Content-Security-Policy"]
    assert not re.search(r"https?:|//", re.sub(r"<time[^>]*>", "", page.body.decode()))
