#!/usr/bin/env python3
"""A hub on a network: HTTP on 127.0.0.1 in front of one `sync hub --file`.

    gateway.py [--most-bytes N] [--seconds S] PORT TOKENS PROGRAM hub --file FILE TABLE...

`POST /` takes requests and gives their answers in order: a line of hex each, or, as `application/octet-stream`, the bytes of one.
`GET /health` says whether the hub answers. TOKENS is a file with a line `ID TOKEN` for each replica, and `admin TOKEN` for the
administrator. A request carries `Authorization: Bearer TOKEN`. With port 0 the system chooses one. The first line of the output is
`ready PORT`.

Who may speak for whom is judged here, since the hub believes any origin: a push or a catch is handed on where its origin is the
token's replica. What gives a table more columns is handed on for the administrator alone, who has no origin. A body is judged whole
before its first line is handed on. What the hub does with it is the hub's own.

One process of the hub owns the file, and is asked one request at a time. It is started again where it has ended, tells that its device
failed, or gives no answer in time. To ask again is safe: a push counts once however often it comes, and the others only read.
So whoever gets no answer sends the same request again.
"""
from __future__ import annotations

import argparse
import binascii
import hmac
import io
import os
import re
import select
import signal
import socket
import subprocess
import sys
import threading
import time
from http import HTTPStatus
from http.server import BaseHTTPRequestHandler
from socketserver import TCPServer, ThreadingMixIn
from typing import Any, Callable, Sequence

MOST_BYTES = 16 << 20               # of a body, where the command line says nothing else
MOST_LINES = 1000                   # of a body
MOST_ENTRIES = 4096                 # that one pull or catch may ask for, since the hub holds them all for its answer
MOST_CONNECTIONS = 64               # at one time, a thread each
SECONDS = 30.0                      # for each part of a request: until it is here, until the hub has answered, until that is sent
LONGEST = 3600.0
PAUSES = (0.0, 0.2, 0.5, 1.0)       # before the hub is started: the one before may hold the file still
GRACE = 0.2                         # for a hub that is dropped, to end by itself
SHORTEST_TOKEN = 16

PUSH, PULL, CATCH, WIDEN = b"\x01", b"\x02", b"\x03", b"\x04"
ADMINISTRATOR = b"admin"            # in the place of an origin: no four bytes are this
PROBE = PULL + bytes(12)            # a pull of no entries
PROBE_ANSWER = b"\x14" + bytes(12)
DEVICE = b"\x13\x2c"                # the hub's device failed; only a hub that opens the file anew may go on

BYTES = "application/octet-stream"
TEXT = "text/plain"


def tell(text: str) -> None:
    """A line for whoever runs the gateway."""
    sys.stderr.write(f"gateway: {text}\n")
    sys.stderr.flush()


# ---- the hub


class Ended(Exception):
    """The hub's process has ended, or wrote what is no answer."""


class Late(Exception):
    """The time for an answer is over."""


class Trouble(Exception):
    """Why there is no answer. Nothing is known of what the hub did."""


def wait_for(pipe: int, event: int, deadline: float) -> None:
    """Waits until a pipe can be read or written, or its other side is gone."""
    waiting = select.poll()
    waiting.register(pipe, event)
    left = deadline - time.monotonic()
    if left <= 0 or not waiting.poll(left * 1000):
        raise Late


class Process:
    """One process of the hub, with its two pipes. What it tells on its error stream is the gateway's."""

    def __init__(self, command: Sequence[str]) -> None:
        self.child = subprocess.Popen(command, bufsize=0, stdin=subprocess.PIPE, stdout=subprocess.PIPE)
        assert self.child.stdin and self.child.stdout
        self.input, self.output = self.child.stdin, self.child.stdout
        os.set_blocking(self.input.fileno(), False)
        os.set_blocking(self.output.fileno(), False)
        self.is_probed = False
        self.is_open = False

    def wait_open(self, deadline: float) -> None:
        """Waits until the hub has opened its file, which is when it answers for the first time. It may go on to wait later."""
        if not self.is_probed:
            self.is_probed = True
            self.write(PROBE, deadline)
        if not self.is_open:
            if self.read(deadline) != PROBE_ANSWER:
                raise Ended
            self.is_open = True

    def ask(self, message: bytes, deadline: float) -> bytes:
        self.write(message, deadline)
        return self.read(deadline)

    def write(self, message: bytes, deadline: float) -> None:
        left = memoryview(message.hex().encode() + b"\n")
        while left:
            wait_for(self.input.fileno(), select.POLLOUT, deadline)
            try:
                left = left[os.write(self.input.fileno(), left):]
            except BlockingIOError:
                continue
            except OSError:
                raise Ended from None

    def read(self, deadline: float) -> bytes:
        """The one line that is owed: nothing may stand behind it, since nothing else was asked."""
        line = bytearray()
        while not line.endswith(b"\n"):
            wait_for(self.output.fileno(), select.POLLIN, deadline)
            piece = os.read(self.output.fileno(), 1 << 16)
            if not piece:
                raise Ended
            line += piece
        try:
            return binascii.unhexlify(line[:-1])
        except ValueError:
            raise Ended from None

    def end(self, seconds: float) -> None:
        """Lets the process end by itself, since its input ends, and kills it where it doesn't. No push that it accepted is lost by that."""
        self.input.close()
        if not self.has_ended(seconds):
            self.child.kill()
            self.has_ended(SECONDS)
        self.output.close()

    def has_ended(self, seconds: float) -> bool:
        try:
            self.child.wait(seconds)
        except subprocess.TimeoutExpired:
            return False
        return True


class Hub:
    """The hub: one process at a time, that takes requests in turn."""

    def __init__(self, command: Sequence[str]) -> None:
        self.command = command
        self.turn = threading.Lock()
        self.process: Process | None = None
        self.status: int | None = None      # with which the last process ended

    def ask(self, messages: Sequence[bytes], seconds: float) -> list[bytes]:
        """The answers to these requests, in order."""
        deadline = time.monotonic() + seconds
        if not self.turn.acquire(timeout=seconds):
            raise Trouble("the hub is busy with others' requests")
        try:
            return [self.answer(message, deadline) for message in messages]
        except Late:
            raise Trouble(f"the hub gave no answer within {seconds:g} seconds") from None
        finally:
            self.turn.release()

    def answer(self, message: bytes, deadline: float) -> bytes:
        """The answer to one request, which is asked once more where the process ends at it or its device fails."""
        if time.monotonic() >= deadline:
            raise Late
        answer = None
        for _ in range(2):
            process = self.opened(deadline)
            try:
                answer = process.ask(message, deadline)
            except Ended:
                answer = None
                self.drop("the hub ended at a request")
                continue
            except BaseException:
                # Its answer may still come, and must not be taken for another request's.
                self.drop("the hub gave no answer in time")
                raise
            if answer != DEVICE:
                return answer
            self.drop("the hub's device failed")
        if answer is None:
            raise Trouble(f"the hub ends at this request, with status {self.status}")
        return answer

    def opened(self, deadline: float) -> Process:
        """The hub's process, which has opened its file. A large file takes its time: no deadline of a request ends that."""
        for pause in PAUSES:
            if self.process is None:
                time.sleep(min(pause, max(0.0, deadline - time.monotonic())))
                self.process = self.start()
            try:
                self.process.wait_open(deadline)
                return self.process
            except Ended:
                self.drop("the hub doesn't open its file")
            except Late:
                raise Trouble("the hub is opening its file") from None
        raise Trouble(f"the hub doesn't open its file; it ends with status {self.status}")

    def start(self) -> Process:
        try:
            process = Process(self.command)
        except OSError as error:
            raise Trouble(f"the hub can't be started: {error}") from None
        tell(f"the hub is process {process.child.pid}")
        return process

    def drop(self, why: str) -> None:
        """Ends the process. The next request starts another."""
        if self.process:
            process, self.process = self.process, None
            process.end(GRACE)
            self.status = process.child.returncode
            tell(f"{why}; it ended with status {self.status}")

    def close(self, seconds: float) -> None:
        """Lets the process end by itself. Nobody asks any more."""
        with self.turn:
            if self.process:
                self.process.end(seconds)
                self.process = None


# ---- what is judged before the hub is asked


class Refusal(Exception):
    """A request that is refused, with its status and why. The hub wasn't asked, or didn't answer."""

    def __init__(self, status: HTTPStatus, why: str) -> None:
        super().__init__(why)
        self.status = status
        self.why = why


def read_tokens(path: str) -> dict[bytes, bytes]:
    """The replica of each token, as the four bytes of an origin, or the administrator. Each may have several, as while one is replaced."""
    tokens: dict[bytes, bytes] = {}
    with open(path, "rb") as file:
        for number, line in enumerate(file, 1):
            words = line.split()
            if not words or words[0].startswith(b"#"):
                continue
            is_admin = words[0] == ADMINISTRATOR
            if len(words) != 2 or not is_admin and not (words[0].isdigit() and int(words[0]) < 1 << 32):
                raise ValueError(f"line {number} is neither `ID TOKEN` nor `admin TOKEN`")
            if len(words[1]) < SHORTEST_TOKEN:
                raise ValueError(f"line {number}: a token has at least {SHORTEST_TOKEN} characters")
            if words[1] in tokens:
                raise ValueError(f"line {number}: the token stands in an earlier line")
            tokens[words[1]] = ADMINISTRATOR if is_admin else int(words[0]).to_bytes(4, "big")
    if not tokens:
        raise ValueError("no token stands there")
    return tokens


def read_lines(body: bytes) -> list[bytes]:
    """The requests of a body, a line of hex each. A last line without a line feed counts where it has bytes."""
    lines = body.split(b"\n")
    if not lines[-1]:
        lines.pop()
    if len(lines) > MOST_LINES:
        raise Refusal(HTTPStatus.BAD_REQUEST, f"a body has at most {MOST_LINES} lines")
    messages = []
    for number, line in enumerate(lines, 1):
        try:
            messages.append(binascii.unhexlify(line))
        except ValueError:
            raise Refusal(HTTPStatus.BAD_REQUEST, f"line {number} of the body is no hex") from None
    return messages


def judge(message: bytes, origin: bytes) -> None:
    """Refuses what is no request, one in another's name, and one for more entries than may be asked for. What else is wrong the hub says."""
    tag = message[:1]
    if tag not in (PUSH, PULL, CATCH, WIDEN):
        raise Refusal(HTTPStatus.BAD_REQUEST, "what begins with none of 01 to 04 is no request")
    if tag == WIDEN and origin != ADMINISTRATOR:
        raise Refusal(HTTPStatus.FORBIDDEN, "only the administrator's token gives a table more columns")
    if tag in (PUSH, CATCH) and message[1:5] != origin:
        raise Refusal(HTTPStatus.FORBIDDEN, "a push or a catch whose origin isn't the token's replica")
    limit = message[9:13] if tag == PULL else message[13:17] if tag == CATCH else b""
    if int.from_bytes(limit, "big") > MOST_ENTRIES:
        raise Refusal(HTTPStatus.BAD_REQUEST, f"a request for more than {MOST_ENTRIES} entries")


# ---- HTTP


class Timed(io.RawIOBase):
    """The bytes of a connection until a deadline, however slowly they come."""

    def __init__(self, connection: socket.socket) -> None:
        self.connection = connection
        self.deadline = 0.0

    def readable(self) -> bool:
        return True

    def readinto(self, buffer: Any) -> int:
        left = self.deadline - time.monotonic()
        if left <= 0:
            raise socket.timeout("the time is over")
        self.connection.settimeout(left)
        return self.connection.recv_into(buffer)


class Door(BaseHTTPRequestHandler):
    """One connection: requests one behind another, each judged, asked and answered."""

    server: Gateway
    protocol_version, default_request_version = "HTTP/1.1", "HTTP/1.0"
    server_version, sys_version = "hub", ""
    error_content_type, error_message_format = TEXT, "%(message)s\n"
    disable_nagle_algorithm = True

    def setup(self) -> None:
        super().setup()
        self.rfile.close()
        self.timed = Timed(self.connection)
        self.rfile = io.BufferedReader(self.timed)
        self.unread = 0                     # bytes of a body that may still come
        self.who = "nobody"

    def handle_one_request(self) -> None:
        """Waits for a request and serves it. A client that is too slow or hangs up ends the connection, and nothing else."""
        seconds = self.server.seconds
        try:
            self.timed.deadline = time.monotonic() + seconds
            if self.server.is_stopping or not self.rfile.peek(1):
                self.close_connection = True
                return
            self.timed.deadline = time.monotonic() + seconds
            self.who = "nobody"
            super().handle_one_request()
        except OSError:
            self.close_connection = True

    def do_POST(self) -> None:
        self.serve(self.post)

    def do_GET(self) -> None:
        self.serve(self.health)

    def serve(self, work: Callable[[], tuple[str, bytes]]) -> None:
        try:
            kind, body = work()
        except Refusal as refusal:
            self.refuse(refusal)
        except Trouble as trouble:
            self.refuse(Refusal(HTTPStatus.SERVICE_UNAVAILABLE, str(trouble)))
        else:
            self.reply(HTTPStatus.OK, kind, body)

    def post(self) -> tuple[str, bytes]:
        """The answers to the requests of a body."""
        if self.path != "/":
            raise Refusal(HTTPStatus.NOT_FOUND, "requests are posted to /")
        self.unread = self.body_size()
        origin = self.origin()
        body = self.body()
        is_one = self.headers.get_content_type() == BYTES
        messages = [body] if is_one else read_lines(body)
        for message in messages:
            judge(message, origin)
        answers = self.server.hub.ask(messages, self.server.seconds)
        if is_one:
            return BYTES, answers[0]
        return TEXT, b"".join(answer.hex().encode() + b"\n" for answer in answers)

    def health(self) -> tuple[str, bytes]:
        """Whether the hub answers: it is asked for no entries, for which it reads nothing."""
        self.close_connection = True
        if self.path != "/health":
            raise Refusal(HTTPStatus.NOT_FOUND, "there is /health, and / to post to")
        if self.server.hub.ask([PROBE], self.server.seconds) != [PROBE_ANSWER]:
            raise Trouble("the hub's device fails")
        return TEXT, b"ok\n"

    def origin(self) -> bytes:
        """The replica whose token came with the request, or the administrator."""
        scheme, _, word = self.headers.get("Authorization", "").partition(" ")
        given = word.strip().encode("latin-1", "replace")
        found = None
        for token, origin in self.server.tokens.items():
            if hmac.compare_digest(token, given):
                found = origin
        if found is None or scheme.lower() != "bearer":
            raise Refusal(HTTPStatus.UNAUTHORIZED, "nobody has this token")
        self.who = "the administrator" if found == ADMINISTRATOR else f"replica {int.from_bytes(found, 'big')}"
        return found

    def body_size(self) -> int:
        """The body's length. It has to be told, once, and in no other way."""
        told = self.headers.get_all("Content-Length", [])
        if not told or "Transfer-Encoding" in self.headers:
            self.unread = self.server.most_bytes
            raise Refusal(HTTPStatus.LENGTH_REQUIRED, "a body comes with its Content-Length, and whole")
        if len(told) > 1 or not re.fullmatch("[0-9]{1,18}", told[0]):
            raise Refusal(HTTPStatus.BAD_REQUEST, "the Content-Length is no number")
        size = int(told[0])
        if size > self.server.most_bytes:
            self.unread = size
            raise Refusal(HTTPStatus.REQUEST_ENTITY_TOO_LARGE, f"a body has at most {self.server.most_bytes} bytes")
        return size

    def body(self) -> bytes:
        """The whole body: of one that doesn't come whole nothing is done."""
        size, self.unread = self.unread, 0
        try:
            body = self.rfile.read(size)
        except socket.timeout:
            raise Refusal(HTTPStatus.REQUEST_TIMEOUT, "the body didn't come in time") from None
        if len(body) < size:
            raise Refusal(HTTPStatus.BAD_REQUEST, "the body ends before its Content-Length")
        return body

    def refuse(self, refusal: Refusal) -> None:
        """Says why, and closes the connection."""
        self.close_connection = True
        tell(f"{refusal.status.value} to {self.who}: {refusal.why}")
        self.reply(refusal.status, TEXT, refusal.why.encode() + b"\n")
        self.discard()

    def reply(self, status: HTTPStatus, kind: str, body: bytes) -> None:
        self.connection.settimeout(self.server.seconds)
        self.send_response(status)
        self.send_header("Content-Type", kind)
        self.send_header("Content-Length", str(len(body)))
        if status == HTTPStatus.UNAUTHORIZED:
            self.send_header("WWW-Authenticate", "Bearer")
        if status == HTTPStatus.SERVICE_UNAVAILABLE:
            self.send_header("Retry-After", "1")
        if self.close_connection:
            self.send_header("Connection", "close")
        self.end_headers()
        self.wfile.write(body)

    def discard(self) -> None:
        """Reads a refused body for a while, since a client that is sending still sees no reply where the connection breaks."""
        self.timed.deadline = time.monotonic() + min(2.0, self.server.seconds)
        while self.unread > 0:
            piece = self.rfile.read(min(self.unread, 1 << 16))
            if not piece:
                break
            self.unread -= len(piece)

    def log_message(self, *_: object) -> None:
        """Requests are logged by the web server in front."""


class Gateway(ThreadingMixIn, TCPServer):
    """The socket, and a thread for each connection. All threads have ended where `stop` returns."""

    allow_reuse_address = True
    daemon_threads = False
    block_on_close = True
    request_queue_size = MOST_CONNECTIONS

    def __init__(self, port: int, hub: Hub, tokens: dict[bytes, bytes], most_bytes: int, seconds: float) -> None:
        super().__init__(("127.0.0.1", port), Door)
        self.hub = hub
        self.tokens = tokens
        self.most_bytes = most_bytes
        self.seconds = seconds
        self.is_stopping = False
        self.connections: set[socket.socket] = set()
        self.serving = threading.Thread(target=self.serve_forever)

    def start(self) -> None:
        self.serving.start()

    def stop(self) -> None:
        """Takes no further request, and waits for those that are being served."""
        self.is_stopping = True
        self.shutdown()
        self.serving.join()
        for connection in list(self.connections):
            try:
                connection.shutdown(socket.SHUT_RD)
            except OSError:
                pass
        self.server_close()

    def process_request(self, request: Any, client_address: Any) -> None:
        if len(self.connections) >= MOST_CONNECTIONS:
            request.sendall(b"HTTP/1.1 503 Service Unavailable\r\nRetry-After: 1\r\nContent-Length: 0\r\nConnection: close\r\n\r\n")
            self.shutdown_request(request)
            return
        self.connections.add(request)
        super().process_request(request, client_address)

    def shutdown_request(self, request: Any) -> None:
        self.connections.discard(request)
        super().shutdown_request(request)


# ---- the command line


def read_command_line() -> argparse.Namespace:
    parser = argparse.ArgumentParser(description="HTTP on 127.0.0.1 in front of one `sync hub --file`.")
    parser.add_argument("--most-bytes", type=int, default=MOST_BYTES, help="of a body (%(default)s)")
    parser.add_argument("--seconds", type=float, default=SECONDS, help="for each part of a request (%(default)s)")
    parser.add_argument("port", type=int, help="0: the system chooses one")
    parser.add_argument("tokens", help="a file with a line `ID TOKEN` for each replica, and `admin TOKEN`")
    parser.add_argument("command", nargs=argparse.REMAINDER, help="sync hub --file FILE TABLE...")
    asked = parser.parse_args()
    if asked.most_bytes < 1 or not 0 < asked.seconds <= LONGEST or not 0 <= asked.port < 1 << 16 or not asked.command:
        parser.error("a number is out of range, or the hub's command is missing")
    return asked


def main() -> int:
    asked = read_command_line()
    try:
        tokens = read_tokens(asked.tokens)
    except (OSError, ValueError) as error:
        tell(f"{asked.tokens}: {error}")
        return 2
    # Waited for below. The hub has them blocked too: it isn't to be stopped at a request, and ends where its input does.
    signals = {signal.SIGINT, signal.SIGTERM}
    signal.pthread_sigmask(signal.SIG_BLOCK, signals)
    hub = Hub(asked.command)
    try:
        gateway = Gateway(asked.port, hub, tokens, asked.most_bytes, asked.seconds)
        begin(hub, asked.seconds)
        print("ready", gateway.server_address[1], flush=True)
        gateway.start()
        signal.sigwait(signals)
        gateway.stop()
    except (OSError, Trouble) as error:
        tell(str(error))
        return 1
    finally:
        hub.close(asked.seconds)
    return 0


def begin(hub: Hub, seconds: float) -> None:
    """Has the hub open its file. Where that takes long it goes on, and requests are told so meanwhile."""
    try:
        hub.ask([PROBE], seconds)
    except Trouble:
        if hub.process is None:
            raise


if __name__ == "__main__":
    sys.exit(main())
