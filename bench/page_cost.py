#!/usr/bin/env python3
# SPDX-License-Identifier: Apache-2.0 OR MIT
"""What a page with a long abstract costs, and what the program keeps of many.

    python3 bench/page_cost.py [PROGRAM] [PAGES]
    python3 bench/page_cost.py --before OTHER [PROGRAM] [PAGES]

PROGRAM is `confd` as `rt run` builds it (crates/confd/out/confd if none is named). Needs only Python 3. Each figure is
one run of `confd pipe` over requests made here, less a run without what is measured; the least of five counts. Nothing
is kept.

With --before it only compares two builds, in one run: they take turns, nine each, and what a page costs is told
as the median of the nine.
"""

import http.client
import http.server
import json
import statistics
import subprocess
import sys
import threading
import time

from lib.program import program_named
from lib.timing import RUNS, least, machine, peak_memory, seconds, timed
from lib.wire import move_to, register, request, submit

TURNS = 9
ABSTRACT = ("We prove what we can. " * 228)[:5000]
PAPERS_EACH = 20
SUBMISSIONS = 9_000


def conference(abstract):
    """A chair, an author with one paper, and the phase in which papers come."""
    return register("alice") + register("erin") + move_to("submission") + submit("erin", "Proofs", abstract)


def check(program, abstract):
    """Sees that the page is told with its abstract, so that the right thing is measured."""
    text = conference(abstract) + request("GET", "/papers/1", "erin")
    told = subprocess.run([program, "pipe"], input=text, stdout=subprocess.PIPE, check=True).stdout
    page = json.loads(told[told.rindex(b"\r\n\r\n") + 4 :])
    if page["abstract"] != abstract:
        sys.exit("the page has another abstract than was submitted")
    return len(told) - told.rindex(b"HTTP/1.1")


def page_cost(program, abstract, pages):
    """Microseconds that one page takes more than no page."""
    base = conference(abstract)
    whole = base + request("GET", "/papers/1", "erin") * pages
    return (least(program, whole) - least(program, base)) / pages * 1e6


def compared(programs, pages):
    """Prints what a page costs by each of two builds, which take turns, and the difference of the medians."""
    for abstract in (ABSTRACT, ""):
        base = conference(abstract)
        whole = base + request("GET", "/papers/1", "erin") * pages
        costs = [[], []]
        for _ in range(TURNS):
            for program, found in zip(programs, costs):
                found.append((seconds(program, whole) - seconds(program, base)) / pages * 1e6)
        before, now = map(statistics.median, costs)
        print(f"a page with an abstract of {len(abstract):,} bytes: before {before:.2f} us, now {now:.2f}, "
              f"{now - before:+.2f}")


def peer_json(pages):
    """Microseconds in which Python's json module makes the same page, its head not counted."""
    page = {"abstract": ABSTRACT, "authors": ["erin"], "paper": 1, "title": "Proofs"}

    def act():
        for _ in range(pages):
            json.dumps(page, separators=(",", ":"), ensure_ascii=False).encode()

    return timed(act, RUNS) / pages * 1e6


class Page(http.server.BaseHTTPRequestHandler):
    protocol_version = "HTTP/1.1"
    wbufsize = -1  # head and content in one write

    def do_GET(self):
        content = json.dumps({"abstract": ABSTRACT, "paper": 1, "title": "Proofs"}).encode()
        self.send_response(200)
        self.send_header("Content-Type", "application/json")
        self.send_header("Content-Length", str(len(content)))
        self.end_headers()
        self.wfile.write(content)

    def log_message(self, *_):
        pass


def peer_http(pages):
    """Microseconds in which Python's http.server answers such a page over one connection."""
    server = http.server.HTTPServer(("127.0.0.1", 0), Page)
    threading.Thread(target=server.serve_forever, daemon=True).start()
    client = http.client.HTTPConnection(*server.server_address)
    began = time.perf_counter()
    for _ in range(pages):
        client.request("GET", "/")
        client.getresponse().read()
    spent = time.perf_counter() - began
    client.close()
    server.shutdown()
    return spent / pages * 1e6


def memory(program):
    """The most memory of a run in which 9,000 abstracts of 5,000 bytes are submitted, in bytes."""
    pieces = [register("alice")]
    authors = [f"author-{n}" for n in range(SUBMISSIONS // PAPERS_EACH)]
    pieces += [register(name) for name in authors]
    pieces.append(move_to("submission"))
    pieces += [submit(name, "Proofs", ABSTRACT) for name in authors for _ in range(PAPERS_EACH)]
    pieces.append(request("GET", "/phase"))
    child = subprocess.Popen([program, "pipe"], stdin=subprocess.PIPE, stdout=subprocess.PIPE)

    def feed():
        for piece in pieces:
            child.stdin.write(piece)
        child.stdin.flush()

    feeder = threading.Thread(target=feed)
    feeder.start()
    # The last answer is there, and the program waits for more: all that it keeps it keeps now.
    told = b""
    while f'"papers":{SUBMISSIONS}'.encode() not in told:
        more = child.stdout.read1(1 << 16)
        if not more:
            sys.exit("not every abstract was taken")
        told = (told + more)[-200_000:]
    most = peak_memory(child.pid)
    feeder.join()
    child.stdin.close()
    child.wait()
    return most


def main():
    words = sys.argv[1:]
    before = None
    if words[:1] == ["--before"] and len(words) > 1:
        before, words = program_named(words[1:2]).path, words[2:]
    program = program_named(words[:1]).path
    pages = int(words[1]) if len(words) > 1 else 20_000
    print(machine())
    size = check(program, ABSTRACT)
    if before is not None:
        check(before, ABSTRACT)
        compared((before, program), pages)
        return
    long = page_cost(program, ABSTRACT, pages)
    short = page_cost(program, "", pages)
    print(f"a page with an abstract of 5,000 bytes, {size} bytes in all: {long:.1f} us")
    print(f"a page with none: {short:.1f} us; the first costs {long / short:.1f} times as much")
    print(f"the same page by Python's json module, without a head: {peer_json(pages // 10):.1f} us")
    print(f"by Python's http.server over a socket: {peer_http(pages // 20):.1f} us")
    texts = SUBMISSIONS * len(ABSTRACT)
    most = memory(program)
    print(f"{SUBMISSIONS:,} abstracts of 5,000 bytes: {most / 1e6:.1f} MB at most, {most / texts:.2f} times the texts")


if __name__ == "__main__":
    main()
