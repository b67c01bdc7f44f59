"""Who answers in tools/browser-test and in ./demo: servers of TLS that say a page, a site's proof and what they are told to, and that
keep what they received; and a wire, at whose other end is now this one and now that one."""
import contextlib
import http.server
import pathlib
import select
import socket
import ssl
import threading

WELL_KNOWN = "/.well-known/arpki/"


class Server(http.server.ThreadingHTTPServer):
    """A server with a TLS key. `page` says what a path answers: (status, headers, body), or None; `proof` what a site shows."""

    daemon_threads = True

    def __init__(self, pair=None, folder=None, page=None, port=0):
        self.folder, self.page, self.got, self.silent, self.pages_everywhere = folder, page or (lambda _: None), [], threading.Event(), False
        super().__init__(("127.0.0.1", port), Visit)
        self.context = None
        if pair:
            self.context = ssl.SSLContext(ssl.PROTOCOL_TLS_SERVER)
            self.context.load_cert_chain(pair.cert, pair.key)
        self.port = self.server_address[1]
        threading.Thread(target=self.serve_forever, daemon=True).start()

    def finish_request(self, request, client_address):
        if self.context:
            request.settimeout(30)
            request = self.context.wrap_socket(request, server_side=True)
        super().finish_request(request, client_address)

    def handle_error(self, request, client_address):
        pass  # a visitor went away, or does not trust the certificate

    def answer(self, path):
        if path.startswith(WELL_KNOWN) and self.folder:
            file = pathlib.Path(self.folder, path[len(WELL_KNOWN):])
            if file.is_file():
                return 200, {"Content-Type": "application/octet-stream"}, file.read_bytes()
        told = None if path.startswith(WELL_KNOWN) and not self.pages_everywhere else self.page(path)
        return told or (404, {"Content-Type": "text/plain"}, b"nothing\n")

    def asked(self, *but):
        """The first lines of what it received, but of these beginnings of paths."""
        return [line for line, _ in self.got if not line.split(" ")[1].startswith(but or ("\n",))]


class Visit(http.server.BaseHTTPRequestHandler):
    protocol_version, timeout = "HTTP/1.1", 30

    def do_GET(self):
        self.server.got.append((self.requestline, dict(self.headers)))
        if self.server.silent.is_set() and self.path.startswith(WELL_KNOWN):
            threading.Event().wait(25)
            return
        status, fields, body = self.server.answer(self.path)
        self.send_response(status)
        for name, value in {"Content-Length": str(len(body)), **fields}.items():
            self.send_header(name, value)
        self.end_headers()
        if self.command != "HEAD":
            with contextlib.suppress(OSError):
                self.wfile.write(body)

    do_HEAD = do_POST = do_GET

    def log_message(self, *_):
        pass


class Wire:
    """A port behind which is one server or another: as where somebody comes between."""

    def __init__(self, to):
        self.to, self.open, self.listening = to, [], socket.create_server(("127.0.0.1", 0), backlog=64)
        self.port = self.listening.getsockname()[1]
        threading.Thread(target=self.run, daemon=True).start()

    def lead(self, to):
        """Leads to another server from here on; what was open is cut."""
        self.to = to
        for one in self.open:
            with contextlib.suppress(OSError):
                one.shutdown(socket.SHUT_RDWR)
        self.open = []

    def run(self):
        while True:
            near, _ = self.listening.accept()
            try:
                far = socket.create_connection(("127.0.0.1", self.to))
            except OSError:
                near.close()
                continue
            self.open += [near, far]
            threading.Thread(target=self.carry, args=(near, far), daemon=True).start()

    @staticmethod
    def carry(near, far):
        with contextlib.suppress(OSError, ValueError), near, far:
            while True:
                for one in select.select([near, far], [], [])[0]:
                    data = one.recv(1 << 16)
                    if not data:
                        return
                    (far if one is near else near).sendall(data)
