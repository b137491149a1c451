"""Asks the front for HTTP of a built program by a real curl and a real browser, has ten thousand streams of changes, and attacks it.

  checks/run http-front PROGRAM [CHECK ..]

It needs Debian's golang-go, curl and openssl, and is skipped without; so is the browser without chromium-driver and
python3-selenium.
"""
import contextlib
import http.client
import json
import os
import pathlib
import re
import signal
import socket
import subprocess
import textwrap
import time

from common.crates import TOP
from common.parts import needs
from common.served import SECONDS, free_port, row_of, same, sockets
from serving.browser import Browser
from serving.controlled import Session, region_in, written
from serving.fronts import NEEDS, Front, Stream, built, certified, curl, front_in, header
from serving.staying import until
from usage.readme import written_by

pytestmark = NEEDS

PAGE, SHOWN = TOP / "http/README.md", re.compile(r"(?:^    .+\n)+", re.MULTILINE)
STREAMS, MOST_MEMORY = 10_000, 200_000
# What a browser does with a stream: it keeps all that it is told.
FOLLOW = """window.told = []; window.source = new EventSource("/changes");
for (const kind of ["missed", "change"]) source.addEventListener(kind, it => told.push([kind, it.lastEventId, it.data]));"""
COUNT = 'window.told.filter(it => it[0] === "{}").length'


def check_tests(program: str, folder: str) -> None:
    """Its own tests, whose answers are as its description says."""
    ran = subprocess.run([TOP / "http/test"], env={**os.environ, "PNUTS": program}, stdin=subprocess.DEVNULL, capture_output=True, text=True)
    same("what the tests say", (ran.returncode, "FAIL" in ran.stdout), (0, False))


def check_readme(program: str, folder: str) -> None:
    """What its page shows is what is said."""
    here = pathlib.Path(folder)
    for name, target in (("bin/pnuts", program), ("out/pnuts-http", built())):
        (here / name).parent.mkdir()
        (here / name).symlink_to(target)
    _, script, shown = map(textwrap.dedent, SHOWN.findall(PAGE.read_text(encoding="utf-8").partition("\n## ")[0]))
    same("what is written", written_by(script, here), shown)


def check_curl(program: str, folder: str) -> None:
    """curl has records, tags, pages by their links, faults, changes, and the log has a line of each."""
    with front_in(program, folder) as (front, _, path):
        written(path, 1, 100)
        tag, url = os.path.join(folder, "tag"), f"{front.url}/records"
        status, head, body = curl("--etag-save", tag, f"{url}/k001")
        same("a record", (status, json.loads(body), header(head, "ETag")[:6]), (200, row_of("k001", 0, "x"), '"1.0-'  + header(head, "ETag")[5:6]))
        same("with its tag", curl("--etag-compare", tag, f"{url}/k001")[::2], (304, ""))
        same("in a later version", curl(f"{url}/k001?at-least=1.1")[0], 412)
        same("a key with a slash", curl(f"{url}/a%2Fb")[0], 404)
        found, page = list[str](), f"{url}?limit=30"
        while page:
            status, head, body = curl(page)
            found += [row["key"] for row in json.loads(body)["rows"]]
            page = front.url + header(head, "Link")[1:].partition(">")[0] if header(head, "Link") else ""
        same("all pages", found, [f"k{at:03}" for at in range(100)])
        where = ["--get", "--data-urlencode", 'where=["eq","v","x"]', "--data-urlencode", "from=k098", url]
        same("a condition", len(json.loads(curl(*where)[2])["rows"]), 2)
        body = json.dumps({"keys": ["k002", "none"]})
        found = json.loads(curl("--json", body, f"{front.url}/get")[2])["rows"]
        same("the records of keys", found, [row_of("k002", 0, "x"), None])
        ran = subprocess.run(["curl", "-sN", "--max-time", "3", f"{front.url}/changes"], capture_output=True, text=True)
        same("changes", (ran.returncode, "\nevent: missed\n" in ran.stdout), (28, True))
        until("the log has the stream", lambda: any(it["path"] == "/changes" for it in front.logged()))
        same("its log", [it["status"] for it in front.logged() if it["path"] == "/records/k001"], [200, 304, 412])


def check_curl_in_http2(program: str, folder: str) -> None:
    """Over TLS curl has HTTP/2, also of streams; certificates and tokens are read again."""
    certificate, key = certified(folder)
    tokens = os.path.join(folder, "tokens")
    with open(tokens, "w", encoding="utf-8") as file:
        file.write("0123456789abcdef read,changes\n")
    words = ["--certificate", certificate, "--key", key, "--tokens", tokens]
    with region_in(folder, program) as (region, control, path):
        with Front(folder, *words, "--control", f"unix:{control}", f"tcp://127.0.0.1:{region.port}", scheme="https") as front:
            written(path, 1, 100)
            asks = ["--http2", "--cacert", certificate, "--header", "Authorization: Bearer 0123456789abcdef"]
            status, head, body = curl(*asks, f"{front.url}/records/k001")
            same("a record", (head.split()[0], status, json.loads(body)), ("HTTP/2", 200, row_of("k001", 0, "x")))
            same("in HTTP/1.1", curl(*asks, "--http1.1", f"{front.url}/records/k001")[0], 200)
            same("without a token", curl(*asks[:3], f"{front.url}/records/k001")[0], 401)
            for protocol in ("--http2", "--http1.1"):
                ran = subprocess.run(["curl", "-sN", "--max-time", "3", *asks, protocol, f"{front.url}/changes"], capture_output=True, text=True)
                same(f"changes by {protocol}", (ran.returncode, "\nevent: missed\n" in ran.stdout), (28, True))
            with open(tokens, "w", encoding="utf-8") as file:
                file.write("fedcba9876543210 read\n")
            certified(folder)
            front.process.send_signal(signal.SIGHUP)
            until("they are read again", lambda: "again" in front.said())
            same("with the token of before", curl(*asks, f"{front.url}/records/k001")[0], 401)
            same("with the new one", curl(*asks[:3], "--header", "Authorization: Bearer fedcba9876543210", f"{front.url}/records/k001")[0], 200)
            front.stop(SECONDS)


@needs("chromium", "chromedriver", modules=("selenium",))
def check_browser(program: str, folder: str) -> None:
    """A browser's EventSource has each change once, also after the front was killed and started anew, and is told where the region was."""
    with region_in(folder, program) as (region, control, path), Browser(folder) as page:
        words = ["--control", f"unix:{control}", f"tcp://127.0.0.1:{region.port}"]
        with Front(folder, *words) as front:
            until("its changes are followed", lambda: front.metric("ranges_not_followed") == 0)
            page.open(f"{front.url}/healthz")
            page.value(FOLLOW)
            until("it is told to read", lambda: page.value(COUNT.format("missed")) == 1)
            written(path, 1, 10)
            until("it has the changes", lambda: page.value(COUNT.format("change")) == 10)
        written(path, 11, 10)
        with Front(folder, *words, port=front.port) as front:
            until("it has those that came meanwhile", lambda: page.value(COUNT.format("change")) == 20)
            written(path, 21, 5)
            until("it has the others", lambda: page.value(COUNT.format("change")) == 25)
            told = page.value('window.told.map(it => it[0] === "change" ? JSON.parse(it[2]).number : 0)')
            same("what it is told", told, [0, *range(1, 26)])
            with Session(control) as session:
                session.told(do="lose", tablet=1)
            until("it is told of a loss", lambda: page.value(COUNT.format("missed")) == 2)
            page.value("source.close()")
            (shown,) = re.findall(r"^```js\n(.*?)^```", PAGE.read_text(encoding="utf-8"), re.MULTILINE | re.DOTALL)
            page.value(f"(() => {{ {shown} }})()")
            until("what its page shows says to read", lambda: page.said() == ["read anew"])
            written(path, 26, 1)
            until("and what changes", lambda: page.said() == ["read anew", "k026"])


def check_idle_streams(program: str, folder: str) -> None:
    """Ten thousand streams without changes take less than 200 MB; a change comes on each; once all have gone, nothing is left of them."""
    with front_in(program, folder, "--quiet") as (front, _, path), contextlib.ExitStack() as stack:
        before = sockets(front.process.pid)
        streams = [stack.enter_context(Stream(front)) for _ in range(STREAMS)]
        for it in streams:
            it.until(b"data: ")
        time.sleep(20)
        same("how many are open", front.metric("streams_open"), STREAMS)
        took = front.memory()
        print(f"  {STREAMS} idle streams: {took / 1000:.0f} MB")
        same(f"whether {took} KB are less than {MOST_MEMORY}", took < MOST_MEMORY, True)
        start = time.monotonic()
        written(path, 1, 1)
        for it in streams:
            it.until(b'"k001"')
        print(f"  a change is on all of them after {time.monotonic() - start:.1f} s")
        for it in streams:
            it.socket.close()
        until("all are gone", lambda: front.metric("streams_open") == 0 and sockets(front.process.pid) <= before + 1)


def check_failover(program: str, folder: str) -> None:
    """While one of two regions is killed and started anew under reads, each read is answered; without any region, each says so."""
    with region_in(folder, program) as (first, _, path), region_in(folder, program, name="other") as (second, _, other):
        written(path, 1, 100)
        written(other, 1, 100)
        with Front(folder, f"tcp://127.0.0.1:{first.port},tcp://127.0.0.1:{second.port}") as front:
            connection = http.client.HTTPConnection(front.address, timeout=SECONDS)
            for at in range(2_000):
                if at == 500:
                    first.process.kill()
                connection.request("GET", f"/records/k{at % 100:03}")
                answer = connection.getresponse()
                same("a read", (answer.status, json.loads(answer.read())["key"]), (200, f"k{at % 100:03}"))
            second.process.kill()
            status, text = front.asked("/records/k001")
            same("without a region", (status, json.loads(text)["error"]), (503, "away"))
            same("its health", front.asked("/healthz")[0], 503)
            same("whether the log says where", "127.0.0.1" in front.logged()[-2].get("cause", ""), True)
            same("whether the answer does", "127.0.0.1" in text, False)


def check_stop(program: str, folder: str) -> None:
    """At SIGTERM what was asked is answered, streams end, and it ends with 0 in time, also where a region never answers."""
    with front_in(program, folder) as (front, _, path), Stream(front) as stream:
        stream.until(b'{"range":0}\n\n')
        connection = http.client.HTTPConnection(front.address, timeout=SECONDS)
        connection.request("GET", "/healthz")
        same("its health", connection.getresponse().read(), b'{"health":"well"}\n')
        front.stop(SECONDS)
        same("the end of its stream", stream.socket.recv(100), b"")
    with socket.create_server(("127.0.0.1", free_port())) as silent:
        with Front(folder, "--timeout", "3", f"tcp://127.0.0.1:{silent.getsockname()[1]}") as front, front.connect() as client:
            client.sendall(b"GET /records/k HTTP/1.1\r\nHost: x\r\n\r\n")
            until("a region is asked", lambda: front.metric("region_sessions_total") > 0)
            front.stop(SECONDS)
            same("the last answer", client.recv(100).split()[1], b"504")
        with Front(folder, "--timeout", "600", f"tcp://127.0.0.1:{silent.getsockname()[1]}") as front, front.connect() as client:
            client.sendall(b"GET /records/k HTTP/1.1\r\nHost: x\r\n\r\n")
            until("a region is asked", lambda: front.metric("region_sessions_total") > 0)
            front.stop(15)
            same("what it says", front.said().splitlines()[1:], ["pnuts-http: some requests were not answered in 10s"])
