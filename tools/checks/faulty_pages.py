"""Faults of what the metrics' port serves, for faulty.py."""
import http.client
import http.server
import re
import subprocess
import sys
import threading
import time

from tools.served import started


def late(text):
    time.sleep(6)
    return text


PAGES = {
    "answers late": late,
    "counts otherwise": lambda text: re.sub(r"(?m)(?<=[ >])([\d,]+)(?=$|[ <])", lambda it: f"{int(it[1].replace(',', '') or 0) + 7:,}", text),
    "has another head on its page": lambda text: text.replace("</title>", "!</title>").replace("prefers-color-scheme", "prefers-contrast"),
    "serves half a page": lambda text: text[: len(text) // 2],
}


class Page(http.server.BaseHTTPRequestHandler):
    """Passes on what is asked at the metrics' port of the real program, and changes what it answers."""

    def do_GET(self):
        asked = http.client.HTTPConnection("127.0.0.1", self.server.behind)
        asked.request(self.command, self.path)
        answer = asked.getresponse()
        body = self.server.change(answer.read().decode()).encode()
        self.send_response(answer.status)
        for name, value in {"Content-Type": answer.headers["Content-Type"], "Content-Length": len(body)}.items():
            self.send_header(name, value)
        self.end_headers()
        self.wfile.write(body)

    do_HEAD = do_POST = do_GET

    def log_message(self, *_):
        """Nothing is logged."""


def serve_pages(fault, program, words):
    """Runs the program, before whose metrics' port this process is."""
    real = started([program, *words], stderr=subprocess.PIPE)
    for line in real.stderr:
        if found := re.fullmatch(rb"metrics 127\.0\.0\.1:(\d+)\n", line):
            front = http.server.ThreadingHTTPServer(("127.0.0.1", 0), Page)
            front.behind, front.change = int(found[1]), PAGES[fault]
            threading.Thread(target=front.serve_forever, daemon=True).start()
            line = b"metrics 127.0.0.1:%d\n" % front.server_port
        sys.stderr.buffer.write(line)
        sys.stderr.flush()
    return real.wait()
