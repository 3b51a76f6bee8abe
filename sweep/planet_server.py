"""A replication server on 127.0.0.1 for sweep/planet, sweep/commands and bench/planet: the files of a folder, and on
some paths a fault in place of the file. It is a proxy as well: a request for http://ANY.HOST/PATH gets the file PATH,
and CONNECT ANY.HOST:PORT leads to that port of this machine. And it writes the trees that it serves, as planet servers
have them, with the diffs made by osmium."""

import collections
import select
import socket
import ssl
import subprocess
import threading
import time
from http.server import BaseHTTPRequestHandler, ThreadingHTTPServer
from pathlib import Path
from urllib.parse import urlsplit

# what a run of a sweep needs at most, with room to spare
MOST_REQUESTS = 5000
LONGEST_STALL = 60

Request = collections.namedtuple("Request", "moment path agent cookie host")


class Fault:
    """What is answered in place of a file: a status with headers, another body, a part of the file and then the end of
    the connection, one byte each `drip` seconds, a Content-Length of `length`, no such header at all if it is 0, or
    silence; `act` is called first."""

    def __init__(self, status=200, headers=None, body=None, cut=False, stall=False, drip=None, length=None, act=None):
        self.status, self.headers, self.body = status, headers or {}, body
        self.cut, self.stall, self.drip, self.length, self.act = cut, stall, drip, length, act


PLAIN = Fault()


class Handler(BaseHTTPRequestHandler):
    protocol_version = "HTTP/1.1"
    timeout = LONGEST_STALL
    # the head and the body are sent by themselves, and neither waits for an answer to the other
    disable_nagle_algorithm = True

    def do_GET(self):
        server = self.server
        path = urlsplit(self.path).path.lstrip("/")
        time.sleep(server.delay)
        headers = self.headers
        fault = server.note(Request(time.monotonic(), path, headers["User-Agent"], headers["Cookie"], headers["Host"]))
        if fault.act:
            fault.act()
        if fault.stall:
            server.ended.wait(LONGEST_STALL)
            self.close_connection = True
        elif fault.status != 200:
            self.answer(fault, b"no file\n" if fault.body is None else fault.body)
        elif fault.body is not None:
            self.answer(fault, fault.body)
        else:
            try:
                self.answer(fault, (server.folder / path).read_bytes())
            except OSError:
                self.answer(Fault(status=404), b"no file\n")

    def do_CONNECT(self):
        """Hands bytes on to a port of this machine, and back, until one end has no more."""
        name, port = self.path.rsplit(":", 1)
        headers = self.headers
        self.server.note(Request(time.monotonic(), "CONNECT", headers["User-Agent"], headers["Cookie"], name))
        self.close_connection = True
        with socket.create_connection(("127.0.0.1", int(port))) as other:
            self.wfile.write(b"HTTP/1.1 200 Connection established\r\n\r\n")
            ends = {self.connection: other, other: self.connection}
            while True:
                for one in select.select(list(ends), [], [], LONGEST_STALL)[0]:
                    block = one.recv(1 << 16)
                    if not block:
                        return
                    ends[one].sendall(block)

    def answer(self, fault, body):
        self.send_response(fault.status)
        for name, value in fault.headers.items():
            self.send_header(name, value)
        if fault.length != 0:
            self.send_header("Content-Length", str(fault.length or len(body)))
        else:
            self.send_header("Connection", "close")
        self.end_headers()
        if fault.drip is not None:
            self.drip(fault.drip, body)
        else:
            self.wfile.write(body[:len(body) // 2] if fault.cut else body)
        if fault.cut or fault.length is not None:
            self.close_connection = True

    def drip(self, seconds, body):
        for place in range(len(body)):
            self.wfile.write(body[place:place + 1])
            if self.server.ended.wait(seconds):
                return

    def log_message(self, *_):
        pass


class Server(ThreadingHTTPServer):
    """Serves the files of a folder until the block ends. `faults` has for a path the answers to its next requests,
    `always` one for all of them. Each answer is given after `delay` seconds. With a certificate, a file that has its
    key too, it speaks TLS. `connections` is how many there were."""

    daemon_threads = True
    request_queue_size = 64

    def __init__(self, folder, delay=0, certificate=None, most=MOST_REQUESTS):
        super().__init__(("127.0.0.1", 0), Handler)
        self.folder, self.delay, self.most = Path(folder), delay, most
        self.faults, self.always, self.requests, self.connections = {}, {}, [], 0
        self.lock, self.ended = threading.Lock(), threading.Event()
        self.context = None
        if certificate:
            self.context = ssl.SSLContext(ssl.PROTOCOL_TLS_SERVER)
            self.context.load_cert_chain(certificate)
        self.place = f"http{'s' if certificate else ''}://127.0.0.1:{self.server_address[1]}"

    def __enter__(self):
        threading.Thread(target=self.serve_forever, args=[0.05], daemon=True).start()
        return self

    def __exit__(self, *_):
        self.ended.set()
        self.shutdown()
        self.server_close()

    def get_request(self):
        connection, address = super().get_request()
        self.connections += 1
        if self.context:
            connection = self.context.wrap_socket(connection, server_side=True, do_handshake_on_connect=False)
        return connection, address

    def handle_error(self, *_):
        # a client that was killed
        pass

    def note(self, request):
        """Takes note of a request, and gives the fault that is answered to it."""
        with self.lock:
            self.requests.append(request)
            if len(self.requests) > self.most:
                return Fault(status=500)
            if self.faults.get(request.path):
                return self.faults[request.path].pop(0)
            return self.always.get(request.path, PLAIN)

    def paths(self):
        """What was asked for since this was called last."""
        with self.lock:
            asked, self.requests = [request.path for request in self.requests], []
        return asked


def path_of(number, suffix):
    digits = f"{number:09d}"
    return f"{digits[:3]}/{digits[3:6]}/{digits[6:]}.{suffix}"


def state_text(number, seconds):
    """A state text as osmosis writes it on planet servers."""
    moment = time.strftime("%Y-%m-%dT%H\\:%M\\:%SZ", time.gmtime(seconds))
    return (time.strftime("#%a %b %d %H:%M:%S UTC %Y\n", time.gmtime(seconds + 2)) + f"sequenceNumber={number}\n"
            f"txnMaxQueried={number * 31}\ntimestamp={moment}\ntxnReadyList=\ntxnMax={number * 31}\ntxnActiveList=\n")


def publish(folder, number, seconds, changes, is_top=True):
    """Puts a number with the OPL file of its changes into a planet server's folder."""
    diff = Path(folder) / path_of(number, "osc.gz")
    diff.parent.mkdir(parents=True, exist_ok=True)
    subprocess.run(["osmium", "cat", "-O", changes, "-o", diff], check=True)
    state = state_text(number, seconds)
    (Path(folder) / path_of(number, "state.txt")).write_text(state)
    if is_top:
        (Path(folder) / "state.txt").write_text(state)
