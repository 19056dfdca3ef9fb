"""The command `serve`: the pages that record and repair in a browser, for this computer alone."""
import argparse
import errno
import os
from http.server import BaseHTTPRequestHandler
from socketserver import ThreadingTCPServer
from typing import Any, Dict

__all__ = ["USUAL_PORT", "Server", "serve"]

# A browser keeps recordings by the address and its port, so that is always the same one unless another is given.
USUAL_PORT = 8416
_ADDRESS = "127.0.0.1"
_PAGES = "record.html", "hound.html"
_HERE = os.path.dirname(os.path.abspath(__file__))
# In the folder of this file in a package, and in bindings/js in a clone.
_FOLDERS = _HERE, os.path.join(_HERE, "..", "..", "js", "page")
_HEADERS = {
    "Content-Security-Policy": "frame-ancestors 'none'",  # Each page has the rest of its policy in itself.
    "Permissions-Policy": "microphone=(self)",
    "X-Content-Type-Options": "nosniff",
    "Referrer-Policy": "no-referrer",
    "Cross-Origin-Opener-Policy": "same-origin",
    "Cross-Origin-Resource-Policy": "same-origin",
    "Cache-Control": "no-cache",
}


class _Handler(BaseHTTPRequestHandler):
    """Answers GET and HEAD; to other methods the class answers 501."""

    server: "Server"
    server_version = "hound-wav"
    sys_version = ""

    def do_GET(self) -> None:
        self._answer()

    def do_HEAD(self) -> None:
        self._answer()

    def _answer(self) -> None:
        # A page of another site whose name leads to this computer sends its own name.
        if self.headers.get_all("Host") != [self.server.host]:
            self._send(421, f"This is http://{self.server.host}/record.html alone.\n".encode())
        elif self.path == "/":
            self._send(302, b"", Location="/record.html")
        elif self.path in self.server.pages:
            self._send(200, self.server.pages[self.path], Content_Type="text/html; charset=utf-8")
        else:
            self._send(404, b"There is no such page.\n")

    def _send(self, status: int, body: bytes, **headers: str) -> None:
        self.send_response(status)
        named = {name.replace("_", "-"): value for name, value in headers.items()}
        for name, value in {"Content-Type": "text/plain", **_HEADERS, **named, "Content-Length": len(body)}.items():
            self.send_header(name, str(value))
        self.end_headers()
        if self.command != "HEAD":
            self.wfile.write(body)

    def log_message(self, format: str, *arguments: Any) -> None:
        """Prints nothing: the terminal is for the address."""


class Server(ThreadingTCPServer):
    """Serves the pages at a port, to this computer alone."""

    daemon_threads = True
    allow_reuse_address = os.name != "nt"  # On Windows two programs could have the port.

    def __init__(self, port: int) -> None:
        self.pages: Dict[str, bytes] = {f"/{name}": _page(name) for name in _PAGES}
        super().__init__((_ADDRESS, port), _Handler)
        self.host = f"{_ADDRESS}:{self.server_address[1]}"


def _page(name: str) -> bytes:
    folder = next((folder for folder in _FOLDERS if os.path.exists(os.path.join(folder, name))), _HERE)
    with open(os.path.join(folder, name), "rb") as file:
        return file.read()


def serve(options: argparse.Namespace) -> int:
    """Serves the pages until the program is ended."""
    address = f"http://{_ADDRESS}:{options.port}/record.html"
    try:
        server = Server(options.port)
    except OSError as error:
        if error.errno != errno.EADDRINUSE:
            raise
        advice = f"if this command has it already, open {address}; else choose another one by --port"
        raise OSError(f"port {options.port} is in use: {advice}") from None
    with server:
        print(f"Open {address} to record. Ctrl-C ends this; what was recorded stays in the browser.", flush=True)
        server.serve_forever()
    return 0
