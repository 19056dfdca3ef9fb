"""The command that serves the pages: what it answers, and to whom."""
import http.client
import os
import signal
import socket
import subprocess
import sys
import threading
import unittest

import hound_bindings
from hound_bindings import serving

PAGES = os.path.join(os.path.dirname(os.path.abspath(__file__)), "..", "..", "js", "page")


class Serving(unittest.TestCase):
    def setUp(self):
        server = serving.Server(0)
        threading.Thread(target=server.serve_forever, args=(0.05,), daemon=True).start()
        self.addCleanup(server.server_close)
        self.addCleanup(server.shutdown)
        self.port = server.server_address[1]

    def answer(self, path, method="GET", host=None):
        connection = http.client.HTTPConnection("127.0.0.1", self.port, timeout=60)
        self.addCleanup(connection.close)
        connection.putrequest(method, path, skip_host=True)
        connection.putheader("Host", host or f"127.0.0.1:{self.port}")
        connection.endheaders()
        response = connection.getresponse()
        return response.status, response.headers, response.read()

    def test_the_pages_are_served_as_they_are(self):
        for name in "record.html", "hound.html":
            status, headers, body = self.answer(f"/{name}")
            with open(os.path.join(PAGES, name), "rb") as file:
                self.assertEqual((status, body), (200, file.read()))
            self.assertEqual(headers["Content-Type"], "text/html; charset=utf-8")
            self.assertEqual(headers["Content-Security-Policy"], "frame-ancestors 'none'")
            self.assertEqual(headers["X-Content-Type-Options"], "nosniff")
            self.assertEqual(headers["Permissions-Policy"], "microphone=(self)")
            status, headers, empty = self.answer(f"/{name}", "HEAD")
            self.assertEqual((status, int(headers["Content-Length"]), empty), (200, len(body), b""))
        status, headers, _ = self.answer("/")
        self.assertEqual((status, headers["Location"]), (302, "/record.html"))

    def test_nothing_else_is_served(self):
        others = "/command.py", "/../hound_bindings/command.py", "/%2e%2e/setup", "/record.html/", "/record.html?", "/x"
        for path in others:
            self.assertEqual(self.answer(path)[0], 404, path)
        for method in "POST", "PUT", "DELETE", "OPTIONS":
            self.assertEqual(self.answer("/record.html", method)[0], 501, method)

    def test_a_request_by_another_name_is_rejected(self):
        port = self.port
        for host in "example.org", f"example.org:{port}", f"localhost:{port}", "127.0.0.1", f"127.0.0.1:{port}0":
            said = f"This is http://127.0.0.1:{port}/record.html alone.\n"
            status, _, body = self.answer("/record.html", host=host)
            self.assertEqual((status, body.decode()), (421, said), host)

    @unittest.skipUnless(sys.platform == "linux", "other systems have one loopback address")
    def test_no_other_address_is_listened_at(self):
        with self.assertRaises(ConnectionRefusedError):
            socket.create_connection(("127.0.0.2", self.port), 60)

    def command(self, *words):
        package = os.path.dirname(os.path.dirname(hound_bindings.__file__))
        environment = {**os.environ, "PYTHONPATH": package}
        words = [sys.executable, "-m", "hound_bindings", "serve", *words]
        return subprocess.Popen(words, env=environment, stdout=subprocess.PIPE, stderr=subprocess.PIPE)

    def test_the_command(self):
        # nohup and & ignore this signal, and what ignores it hands that on.
        self.addCleanup(signal.signal, signal.SIGINT, signal.signal(signal.SIGINT, signal.default_int_handler))
        with socket.socket() as free:
            free.bind(("127.0.0.1", 0))
            port = free.getsockname()[1]
        running = self.command("--port", str(port))
        address = f"http://127.0.0.1:{port}/record.html"
        said = f"Open {address} to record. Ctrl-C ends this; what was recorded stays in the browser.\n"
        self.assertEqual(running.stdout.readline().decode(), said)
        self.port = port
        self.assertEqual(self.answer("/record.html")[0], 200)
        another = self.command("--port", str(port))
        advice = f"if this command has it already, open {address}; else choose another one by --port"
        complaint = f"hound-wav: port {port} is in use: {advice}\n".encode()
        self.assertEqual((another.communicate(timeout=60), another.returncode), ((b"", complaint), 1))
        running.send_signal(signal.SIGINT)
        self.assertEqual(running.communicate(timeout=60), (b"", b""))
        self.assertEqual(running.returncode, -signal.SIGINT)
        for words in (["--port", "0"], ["--port", "65536"], ["--port", "x"], ["x"]):
            wrong = self.command(*words)
            wrong.communicate(timeout=60)
            self.assertEqual(wrong.returncode, 2, words)


if __name__ == "__main__":
    unittest.main()
