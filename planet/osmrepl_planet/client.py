"""Requests to a server, by urllib3: over a few connections that are kept alive, each with a deadline, and each fault
with its cause. Redirections, retries and waits are done here by hand, since the library follows https to http, and
sleeps as long as a server asks for."""

import email.utils
import http.client
import http.cookiejar
import os
import re
import socket
import threading
import time
import urllib.request
from dataclasses import dataclass, field
from pathlib import Path
from typing import BinaryIO
from urllib.parse import urljoin, urlsplit

import urllib3
from urllib3.connection import HTTPConnection, HTTPSConnection
from urllib3.connectionpool import HTTPConnectionPool, HTTPSConnectionPool
from urllib3.exceptions import HTTPError, MaxRetryError, NewConnectionError, ProtocolError, SSLError
from urllib3.exceptions import TimeoutError as NoAnswerInTime

from . import VERSION, threads
from .faults import Fault, Stopped, cause_of, one_line
from .files import open_file, reading, writing
from .stop import Stop

AGENT = f"osmrepl-planet/{VERSION}"
CONNECTIONS = 4
MOST_REDIRECTIONS = 5
BLOCK = 1 << 16
# Bytes a second that a server has to send after its first minute, and the longest that a file may take.
SLOWEST = 1 << 13
FIRST_SECONDS = 60
LONGEST = 600
# how long a server can keep us away
LONGEST_AWAY = 86400

# how much of an address that a server named is said
MOST_SAID = 200

REDIRECTIONS = (301, 302, 303, 307, 308)
GONE = (404, 410)


@dataclass(frozen=True)
class Settings:
    """How a server is asked."""

    timeout: int = 30
    tries: int = 3
    cookies: str | None = None


@dataclass(frozen=True)
class Answer:
    """What came of a request: whether the file is there, where it was in the end, its bytes unless they went into a
    file, and how many there were."""

    is_there: bool
    url: str
    body: bytes = b""
    size: int = 0


class KeptAway(Fault):
    """The server wants no request before a moment, in seconds since 1970."""

    def __init__(self, text: str, moment: int) -> None:
        super().__init__(text, mends=True)
        self.moment = moment


@dataclass(eq=False)
class Watch:
    """A request that is under way in a thread."""

    start: float = field(default_factory=time.monotonic)
    received: int = 0
    twin: socket.socket | None = None
    is_late: bool = False

    def is_over(self, now: float) -> bool:
        spent = now - self.start
        return spent > LONGEST or spent > FIRST_SECONDS + self.received / SLOWEST

    def end(self) -> None:
        """Ends the connection, so that whoever reads from it goes on."""
        try:
            if self.twin:
                self.twin.shutdown(socket.SHUT_RDWR)
        except OSError:
            pass


class Watcher:
    """Ends the requests that take too long: the timeout of a socket is the one between two bytes."""

    def __init__(self) -> None:
        self.local, self.lock, self.watches = threading.local(), threading.Lock(), set()
        self.ended = threading.Event()
        threads.begin(self.look)

    def look(self) -> None:
        while not self.ended.wait(0.5):
            now = time.monotonic()
            with self.lock:
                for watch in self.watches:
                    if watch.is_over(now):
                        watch.is_late = True
                        watch.end()

    def begin(self) -> Watch:
        watch = Watch()
        self.local.watch = watch
        with self.lock:
            self.watches.add(watch)
        return watch

    def finish(self, watch: Watch) -> None:
        self.local.watch = None
        with self.lock:
            self.watches.discard(watch)

    def hold(self, twin: socket.socket | None) -> None:
        """Notes the connection of this thread's request."""
        watch = getattr(self.local, "watch", None)
        if watch:
            watch.twin = twin

    def end_all(self) -> None:
        self.ended.set()
        with self.lock:
            for watch in self.watches:
                watch.end()


def watched(base: type, watcher: Watcher) -> type:
    """A class of connections that tells the watcher of each request. A twin of the socket outlives what TLS does with
    it."""

    class Watched(base):
        twin = None

        def _new_conn(self):
            made = super()._new_conn()
            self.twin = made.dup()
            watcher.hold(self.twin)
            return made

        def putrequest(self, *words, **more):
            watcher.hold(self.twin)
            return super().putrequest(*words, **more)

        def close(self):
            super().close()
            if self.twin:
                self.twin.close()
                self.twin = None

    return Watched


def pools_of(watcher: Watcher) -> dict[str, type]:
    plain = type("Pool", (HTTPConnectionPool,), {"ConnectionCls": watched(HTTPConnection, watcher)})
    secure = type("SecurePool", (HTTPSConnectionPool,), {"ConnectionCls": watched(HTTPSConnection, watcher)})
    return {"http": plain, "https": secure}


class Client:
    """Asks for files. Threads may share it."""

    def __init__(self, settings: Settings, stop: Stop) -> None:
        self.settings, self.stop = settings, stop
        self.watcher = Watcher()
        self.timeout = urllib3.Timeout(connect=settings.timeout, read=settings.timeout)
        self.managers: dict[str | None, urllib3.PoolManager] = {}
        # the connections to each server, and whether it is asked by whole addresses, as a proxy is
        self.pools: dict[str, HTTPConnectionPool | urllib3.PoolManager] = {}
        self.lock = threading.Lock()
        self.jar = jar_of(settings.cookies)
        self.proxies = urllib.request.getproxies()

    def __enter__(self) -> "Client":
        return self

    def end(self) -> None:
        """Ends all requests, of other threads too."""
        self.watcher.end_all()

    def __exit__(self, *_: object) -> None:
        self.end()
        for manager in self.managers.values():
            manager.clear()

    def get(self, url: str, most: int, into: BinaryIO | None = None) -> Answer:
        """Asks for a file of at most so many bytes, and again after faults that may pass."""
        wait = 1
        for left in reversed(range(self.settings.tries)):
            self.pause(0)
            try:
                return self.follow(url, most, into)
            except KeptAway:
                raise
            except Fault as fault:
                if not fault.mends or left == 0 or isinstance(fault, Late):
                    raise
            self.pause(wait)
            wait *= 2
        raise Stopped

    def pause(self, seconds: float) -> None:
        """Waits, unless the run is to end."""
        end = time.monotonic() + seconds
        while True:
            if self.stop.is_set or self.watcher.ended.is_set():
                raise Stopped
            if time.monotonic() >= end:
                return
            self.stop.wait(0.1)

    def follow(self, url: str, most: int, into: BinaryIO | None) -> Answer:
        """Asks once, and wherever the server says that the file is."""
        asked = url
        for _ in range(MOST_REDIRECTIONS + 1):
            answer = self.ask(url, most, into)
            if isinstance(answer, Answer):
                return answer
            url = led_to(url, answer)
        raise Fault(f"{asked}: leads on more than {MOST_REDIRECTIONS} times")

    def ask(self, url: str, most: int, into: BinaryIO | None) -> Answer | str:
        """One request: its answer, or the address where it leads."""
        watch = self.watcher.begin()
        try:
            if into:
                # what a try before this one left
                into.seek(0)
                into.truncate()
            return self.read(url, most, into, watch)
        except (HTTPError, http.client.HTTPException, OSError, ValueError) as error:
            if self.stop.is_set or self.watcher.ended.is_set():
                raise Stopped from error
            if watch.is_late:
                raise Late(url, watch.received) from error
            raise fault_of(url, error) from error
        finally:
            self.watcher.finish(watch)

    def read(self, url: str, most: int, into: BinaryIO | None, watch: Watch) -> Answer | str:
        pool, target = self.pool(url)
        answer = pool.urlopen("GET", target, headers=self.headers(url), preload_content=False, decode_content=False,
                              redirect=False, retries=False, timeout=self.timeout)
        is_whole = False
        try:
            if answer.status == 200:
                body, size = self.body(url, answer, most, into, watch)
                is_whole = True
                return Answer(True, url, body, size)
            # what an error's page says is of no use, but a connection whose page was read can be used again
            is_whole = is_drained(answer)
            return judge(url, answer)
        finally:
            if not is_whole:
                answer.close()
            answer.release_conn()

    def body(self, url: str, answer: urllib3.HTTPResponse, most: int, into: BinaryIO | None,
             watch: Watch) -> tuple[bytes, int]:
        parts = []
        while block := block_of(url, answer):
            watch.received += len(block)
            if watch.received > most:
                raise Fault(f"{url}: larger than {most >> 20} MiB" if most >> 20 else f"{url}: bad state")
            if into:
                with writing(into.name):
                    into.write(block)
            else:
                parts.append(block)
        if watch.is_late:
            raise Late(url, watch.received)
        if self.stop.is_set and watch.twin is None:
            raise Stopped
        told = answer.headers.get("Content-Length", "")
        if re.fullmatch("[0-9]{1,18}", told) and int(told) != watch.received:
            raise Fault(f"{url}: cut off: {watch.received} of {int(told)} bytes", mends=True)
        return b"".join(parts), watch.received

    def headers(self, url: str) -> dict[str, str]:
        headers = {"User-Agent": AGENT}
        if self.jar is not None:
            request = urllib.request.Request(url)
            self.jar.add_cookie_header(request)
            if request.has_header("Cookie"):
                headers["Cookie"] = request.get_header("Cookie")
        return headers

    def pool(self, url: str) -> tuple[HTTPConnectionPool | urllib3.PoolManager, str]:
        """The connections for an address, and what they are asked for. Without a proxy those of the server are asked
        themselves, which spares some of a request's time."""
        place = url[:url.find("/", 8)] if url.find("/", 8) > 0 else url
        if place not in self.pools:
            manager = self.manager(url)
            is_direct = not isinstance(manager, urllib3.ProxyManager)
            self.pools[place] = manager.connection_from_url(url) if is_direct else manager
        pool = self.pools[place]
        return (pool, url) if isinstance(pool, urllib3.PoolManager) else (pool, url[len(place):] or "/")

    def manager(self, url: str) -> urllib3.PoolManager:
        """The pools of connections to a server, or to the proxy before it."""
        parts = urlsplit(url)
        proxy = self.proxies.get(parts.scheme) or self.proxies.get("all")
        if proxy and urllib.request.proxy_bypass(parts.hostname or ""):
            proxy = None
        with self.lock:
            if proxy not in self.managers:
                self.managers[proxy] = self.new_manager(proxy)
            return self.managers[proxy]

    def new_manager(self, proxy: str | None) -> urllib3.PoolManager:
        # the library itself takes no notice of these
        names = {"ca_certs": os.environ.get("SSL_CERT_FILE"), "ca_cert_dir": os.environ.get("SSL_CERT_DIR")}
        secure = {name: value for name, value in names.items() if value}
        if proxy is None:
            manager = urllib3.PoolManager(maxsize=CONNECTIONS, block=True, **secure)
        else:
            place = urllib3.util.parse_url(proxy if "://" in proxy else f"http://{proxy}")
            headers = urllib3.make_headers(proxy_basic_auth=place.auth) if place.auth else None
            manager = urllib3.ProxyManager(place.url, maxsize=CONNECTIONS, block=True, proxy_headers=headers,
                                           **secure)
        manager.pool_classes_by_scheme = pools_of(self.watcher)
        return manager


class Late(Fault):
    """A file that took too long, though its server went on."""

    def __init__(self, url: str, received: int) -> None:
        super().__init__(f"{url}: timed out, too slow ({received} bytes)", mends=True)


def jar_of(path: str | None) -> http.cookiejar.MozillaCookieJar | None:
    """The cookies of a file in Netscape's form; its first line may be missing, as for curl."""
    if path is None:
        return None
    with reading(path), open_file(Path(path)):
        pass
    jar = http.cookiejar.MozillaCookieJar(path)
    # the library wants a first line that not every file has, and takes cookies of a session for outdated ones
    jar.magic_re = re.compile("")
    try:
        jar.load(ignore_discard=True, ignore_expires=True)
    except (OSError, http.cookiejar.LoadError, UnicodeDecodeError) as error:
        raise Fault(f"{path}: read failed ({cause_of(error)})") from error
    for cookie in jar:
        if cookie.expires == 0:
            cookie.expires, cookie.discard = None, True
    jar.clear_expired_cookies()
    return jar


def is_drained(answer: urllib3.HTTPResponse) -> bool:
    """Whether the rest of a short answer could be read."""
    try:
        return len(answer.read(BLOCK)) < BLOCK
    except (HTTPError, http.client.HTTPException, OSError, ValueError):
        return False


def block_of(url: str, answer: urllib3.HTTPResponse) -> bytes:
    """The next bytes of an answer. For a chunk of negative length the library has no fault of its own."""
    try:
        return answer.read(BLOCK)
    except ValueError as error:
        raise Fault(f"{url}: no answer: {one_line(str(error))}", mends=True) from error


def judge(url: str, answer: urllib3.HTTPResponse) -> Answer | str:
    """What a status other than 200 says."""
    status = answer.status
    if status in REDIRECTIONS and answer.headers.get("Location"):
        return answer.headers["Location"]
    if status in GONE:
        return Answer(False, url)
    text = f"{url}: status {status}"
    moment = moment_of(answer.headers.get("Retry-After"), time.time())
    if moment is not None and (status == 429 or status >= 500):
        raise KeptAway(text, moment)
    raise Fault(text, mends=status in (408, 429) or status >= 500)


def led_to(url: str, location: str) -> str:
    """The address where a redirection leads: never from https to http, and to no other scheme."""
    try:
        to = urljoin(url, location)
        before, after = urlsplit(url).scheme, urlsplit(to).scheme
    except ValueError:
        to, before, after = location, "", ""
    if after not in ("http", "https") or (before == "https" and after == "http"):
        raise Fault(f"{url}: leads to {one_line(to[:MOST_SAID])}, which is refused")
    return to


def moment_of(text: str | None, now: float) -> int | None:
    """The moment that a `Retry-After` says, in seconds since 1970, at most a day from now."""
    if not text:
        return None
    if re.fullmatch("[0-9]{1,9}", text.strip()):
        moment = now + int(text)
    else:
        try:
            moment = email.utils.parsedate_to_datetime(text).timestamp()
        except (TypeError, ValueError, OverflowError):
            return None
    return int(min(moment, now + LONGEST_AWAY))


def fault_of(url: str, error: BaseException) -> Fault:
    """The fault of a request without an answer."""
    if isinstance(error, Fault):
        return error
    while isinstance(error, MaxRetryError) and error.reason:
        error = error.reason
    if isinstance(error, SSLError) or "CERTIFICATE" in str(error).upper():
        return Fault(f"{url}: certificate: {reason_of(error)}")
    if isinstance(error, (NoAnswerInTime, TimeoutError)) and not isinstance(error, NewConnectionError):
        return Fault(f"{url}: timed out", mends=True)
    if isinstance(error, (urllib3.exceptions.LocationParseError, urllib3.exceptions.URLSchemeUnknown, ValueError)):
        return Fault(f"{url}: no address ({one_line(str(error))})")
    if isinstance(error, ProtocolError) and isinstance(cause_in(error), http.client.IncompleteRead):
        return Fault(f"{url}: cut off", mends=True)
    return Fault(f"{url}: no answer: {reason_of(error)}", mends=True)


def cause_in(error: BaseException) -> BaseException:
    """The first cause of a fault of the library."""
    while True:
        inner = next((part for part in reversed(error.args) if isinstance(part, BaseException)), None)
        inner = inner or error.__cause__ or (error.__context__ if isinstance(error, HTTPError) else None)
        if inner is None or inner is error:
            return error
        error = inner


def reason_of(error: BaseException) -> str:
    """What the system said of a fault, without the library's words around it."""
    return cause_of(cause_in(error))
