"""The room over HTTP, by aiohttp: one port for pages, events and commands. A window speaks by a WebSocket: it sends
commands as JSON, one a message, and gets an answer to each, and the events of its room. Where it holds its viewer
itself, binary messages are datagrams between that and the host."""
import asyncio
import gzip
import io
import ipaddress
import json
import re
import socket
from pathlib import Path
from urllib.parse import urlsplit

from aiohttp import WSCloseCode, WSMsgType, web

from commands import COMMANDS
from files import Files
from library import x3d
from outbox import Outbox
from people import same
from service import Wrong

HERE = Path(__file__).resolve().parent
# Bytes of a message, seconds until a window has come in, and between looks whether it is still there.
MESSAGE, ENTERING, HEARTBEAT = 1024, 10, 20
# What this machine alone calls itself.
HERE_ALONE = re.compile(r"(localhost|127\.[\d.]+|\[::1\])(:\d+)?$")
# How many wrong passwords an address may send in a minute.
GUESSES = 10
POLICY = (
    "default-src 'none'; script-src 'self' 'wasm-unsafe-eval'; style-src 'self'; img-src 'self' data:; base-uri 'none'; "
    "form-action 'none'; frame-ancestors 'none'; connect-src 'self' ws://{host} wss://{host}"
)
SAFE = {"Cache-Control": "no-store", "X-Content-Type-Options": "nosniff", "Referrer-Policy": "no-referrer"}


class Site:
    """The pages and sockets of rooms."""

    def __init__(self, services, options, three):
        self.services, self.options, self.guesses = services, options, {}
        self.files = Files(HERE / "page", three, options.wasm)
        named = {"localhost", socket.gethostname().lower(), *(each.lower() for each in options.name)}
        self.names = named | {f"{name}.local" for name in named if "." not in name}

    def application(self):
        app = web.Application(middlewares=[self.checked], client_max_size=MESSAGE)
        app.on_response_prepare.append(self.prepare)
        app.router.add_get("/", self.index)
        app.router.add_get("/static/{file}", self.file)
        app.router.add_get("/static/x3d/{library}", self.file)
        app.router.add_get("/{room}", self.beside)
        app.router.add_get("/{room}/", self.page)
        app.router.add_get("/{room}/socket", self.socket)
        app.router.add_get("/{room}/{kind:job|x3dlog}", self.run)
        app.router.add_get("/{room}/link.svg", self.link)
        return app

    # What is refused.

    @web.middleware
    async def checked(self, request, handler):
        try:
            if not self.is_own(request.host):
                raise Wrong(403, "another host's name")
            return await handler(request)
        except Wrong as wrong:
            return web.json_response({"refused": wrong.why}, status=wrong.status)
        except web.HTTPException as refused:
            if refused.status < 400:
                raise
            return web.json_response({"refused": refused.reason}, status=refused.status)

    async def prepare(self, request, response):
        """Each answer ends its connection, so that no one keeps one that does nothing. What has a tag may be kept, and
        is asked for again."""
        response.headers.update(SAFE)
        if "ETag" in response.headers:
            response.headers["Cache-Control"] = "no-cache"
        response.headers["Content-Security-Policy"] = POLICY.format(host=request.host)
        if response.status != 101:
            response.force_close()

    def is_own(self, host):
        """Whether a Host is one of this server: an address, which no page elsewhere can make its own, or a name."""
        found = re.fullmatch(r"\[([0-9a-fA-F:.]+)\](?::\d+)?|([\w.-]+)(?::\d+)?", host or "")
        if not found:
            return False
        try:
            return bool(ipaddress.ip_address(found[1] or found[2]))
        except ValueError:
            return (found[2] or "").lower() in self.names

    def service(self, request):
        service = self.services.get(request.match_info["room"])
        if not service:
            raise Wrong(404, "no such room")
        return service

    def address(self, request):
        """Where a client is; a proxy says it of its own."""
        if self.options.proxy:
            return request.headers.get("X-Forwarded-For", "").split(",")[-1].strip() or "proxy"
        return request.remote

    # Pages.

    async def index(self, request):
        names = [*self.services]
        if len(names) == 1:
            raise web.HTTPFound(f"{names[0]}/")
        links = "".join(f'<li><a href="{name}/">{name}</a></li>' for name in names)
        page = (HERE / "page/rooms.html").read_text().replace("<!-- rooms -->", links)
        return web.Response(text=page, content_type="text/html")

    async def beside(self, request):
        raise web.HTTPFound(f"{self.service(request).name}/")

    async def page(self, request):
        """The page, which is told whether there is a library to hold its viewer."""
        self.service(request)
        page = (HERE / "page/page.html").read_text()
        if self.options.wasm:
            page = page.replace("<body>", '<body data-library="x3d">')
        return web.Response(text=page, content_type="text/html")

    async def file(self, request):
        name = request.match_info.get("file") or f"x3d/{request.match_info['library']}"
        found = self.files.find(name)
        if not found:
            raise Wrong(404, "no such path")
        kind, tag, packed = found
        if request.headers.get("If-None-Match") == tag:
            return web.Response(status=304, headers={"ETag": tag})
        headers = {"Content-Type": kind, "ETag": tag, "Vary": "Accept-Encoding"}
        if "gzip" in request.headers.get("Accept-Encoding", ""):
            return web.Response(body=packed, headers={**headers, "Content-Encoding": "gzip"})
        return web.Response(body=gzip.decompress(packed), headers=headers)

    async def run(self, request):
        """What happened, as a job or as a world's log, for a window of the room: its token stands in a header."""
        service = self.service(request)
        window, record = service.window_of(request.headers.get("X-Room-Token")), service.record
        if not window:
            raise Wrong(403, "no such window")
        if not window.commands.takes():
            raise Wrong(429, "too many commands a second")
        write = {"job": record.job, "x3dlog": record.x3dlog}[request.match_info["kind"]]
        # A long one takes a while, in which the room goes on.
        async with service.writing:
            body = await asyncio.get_running_loop().run_in_executor(None, write)
        return web.Response(body=body, content_type="application/octet-stream")

    async def link(self, request):
        """The room's address as a QR code."""
        service = self.service(request)
        try:
            import segno
        except ImportError:
            raise Wrong(404, "Debian's package python3-segno draws the QR code") from None
        scheme = request.headers.get("X-Forwarded-Proto", "http") if self.options.proxy else "http"
        place, drawn = f"{'https' if scheme == 'https' else 'http'}://{request.host}/", io.BytesIO()
        if HERE_ALONE.match(request.host):
            place = self.options.place or place
        code = segno.make(f"{place}{service.name}/", micro=False)
        code.save(drawn, kind="svg", scale=4, border=2, light="white")
        return web.Response(body=drawn.getvalue(), content_type="image/svg+xml")

    # Windows.

    async def socket(self, request):
        """A window's connection, from its first message, by which it comes in, to its end."""
        service, origin = self.service(request), request.headers.get("Origin")
        if origin is not None and urlsplit(origin).netloc.lower() != request.host.lower():
            raise Wrong(403, "a page of another origin")
        connection = web.WebSocketResponse(max_msg_size=MESSAGE, heartbeat=HEARTBEAT, compress=False)
        if not connection.can_prepare(request).ok:
            raise Wrong(426, "a WebSocket")
        await connection.prepare(request)
        self.options.connected(request.transport)
        window = outbox = None
        try:
            window, outbox = await self.enter(service, connection, request.transport, self.address(request))
            if window:
                await self.converse(service, window, outbox, connection)
        except (asyncio.TimeoutError, ConnectionError):
            pass
        finally:
            if window:
                service.away(window, outbox, connection.close_code in (1000, 1001))
        return connection

    async def enter(self, service, connection, transport, address):
        """The window of who comes in; none where it is refused, and was told so."""
        try:
            body = self.read(await connection.receive(timeout=ENTERING))
            if body.get("do") != "enter":
                raise Wrong(400, "a window comes in first")
            self.check_password(body.get("password"), address)
            outbox = Outbox(transport)
            window = service.enter(address, outbox, body)
        except (Wrong, x3d.Fault, MemoryError) as wrong:
            status = wrong.status if isinstance(wrong, Wrong) else 409
            await connection.send_json({"kind": "refused", "status": status, "why": str(wrong)})
            await connection.close(code=WSCloseCode.POLICY_VIOLATION)
            return None, None
        service.welcome(window)
        return window, outbox

    def check_password(self, given, address):
        if not self.options.password:
            return
        now = asyncio.get_running_loop().time()
        late = [each for each in self.guesses.get(address, []) if now - each < 60]
        if len(late) >= GUESSES:
            raise Wrong(429, "too many wrong passwords: wait a minute")
        if not same(given, self.options.password):
            self.guesses[address] = [*late, *([now] if given else [])]
            raise Wrong(401, "wrong password" if given else "password")

    async def converse(self, service, window, outbox, connection):
        """Answers what a window asks, and sends its events, until either ends."""
        sending = asyncio.ensure_future(outbox.send_to(connection))
        try:
            async for received in connection:
                if received.type is WSMsgType.BINARY and window.holds:
                    service.receive(window, received.data)
                elif not outbox.put(json.dumps(self.answer(service, window, received))):
                    break
        finally:
            sending.cancel()
            await asyncio.gather(sending, return_exceptions=True)

    def answer(self, service, window, received):
        """Does what a window asks. What it may not, or what has no sense, changes nothing."""
        number = None
        try:
            body = self.read(received)
            number = body.get("id") if type(body.get("id")) is int else None
            work = COMMANDS.get(body["do"]) if isinstance(body.get("do"), str) else None
            if not work:
                raise Wrong(404, "no such command")
            if body["do"] != "point" and not window.commands.takes():
                raise Wrong(429, "too many commands a second")
            done = work(service, window, body) or {}
        except Wrong as wrong:
            return {"kind": "answer", "id": number, "status": wrong.status, "refused": wrong.why}
        except (x3d.Fault, MemoryError) as fault:
            return {"kind": "answer", "id": number, "status": 409, "refused": str(fault)}
        return {"kind": "answer", "id": number, "status": 200, **done}

    def read(self, received):
        """The object of JSON that a message is."""
        if received.type in (WSMsgType.CLOSE, WSMsgType.CLOSING, WSMsgType.CLOSED, WSMsgType.ERROR):
            raise ConnectionError("closed")
        if received.type is not WSMsgType.TEXT:
            raise Wrong(415, "JSON alone")
        try:
            body = json.loads(received.data)
        except (ValueError, RecursionError):
            raise Wrong(400, "no JSON") from None
        if not isinstance(body, dict):
            raise Wrong(400, "no object")
        return body
