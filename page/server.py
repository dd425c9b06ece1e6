"""The page's server: on the loopback address alone, for requests that have the secret, and the right host and origin."""

import hmac
import json
import pathlib
import re
import secrets
import sys
import threading
import time
from http.server import BaseHTTPRequestHandler, ThreadingHTTPServer
from urllib.parse import parse_qs, urlsplit

from answers import Fault
from position import LONGEST_FILE
from script import say

HERE = pathlib.Path(__file__).resolve().parent
ADDRESS = '127.0.0.1'
MOST_REQUESTS = 16  # at once
SLOWEST = 10  # seconds that a request may take to come
LONGEST_ADDRESS = 500
SETTLING = 0.4  # seconds for which the reply to an action waits for the answers, so that the page needn't be drawn twice
AWAY = 90  # seconds without a word of the page after which the server ends: a page that is hidden seldom speaks
GRACE = 4  # the same after the page said that it goes; one that is only loaded again comes back
FILES = {
    '': ('page.html', 'text/html; charset=utf-8'), 'page.css': ('page.css', 'text/css; charset=utf-8'),
    **{name: (name, 'text/javascript; charset=utf-8') for name in ('page.js', 'board.js', 'panels.js', 'words.js')},
}
POLICY = ("default-src 'none'; script-src 'self'; style-src 'self'; img-src 'self' data:; connect-src 'self'; base-uri 'none'; form-action 'none'; "
          "frame-ancestors 'none'")
PICTURE_POLICY = "default-src 'none'; style-src 'unsafe-inline'"

# What the page may ask for, with the words that each takes.
ACTIONS = {
    'choose': ('name',), 'new': ('columns', 'rows'), 'edit': ('point', 'colour'), 'mark': ('point', 'colour'),
    'configure': ('options',), 'undo': (), 'redo': (), 'stop': (), 'again': (),
    'close_position': (), 'fill_pairs': (), 'begin_game': ('engine',), 'play': ('move',), 'take_back': (), 'end_game': (),
}


class Server(ThreadingHTTPServer):
    daemon_threads = True

    def __init__(self, desk, port=0):
        self.desk, self.secret, self.key = desk, secrets.token_urlsafe(24), secrets.token_urlsafe(24)
        self.places = threading.BoundedSemaphore(MOST_REQUESTS)
        self.deadline = None  # when the server ends, if the page doesn't speak; none before its first word
        super().__init__((ADDRESS, port), Handler)

    def process_request(self, request, address):
        if self.places.acquire(timeout=1):
            super().process_request(request, address)
        else:
            self.shutdown_request(request)

    def process_request_thread(self, request, address):
        try:
            super().process_request_thread(request, address)
        finally:
            self.places.release()

    def handle_error(self, request, address):
        """Tells what went wrong; a reader that goes is no fault."""
        error = sys.exc_info()[1]
        if not isinstance(error, OSError):
            say('gdsolve-board: %s: %s' % (type(error).__name__, error))

    def service_actions(self):
        if self.deadline is not None and time.monotonic() > self.deadline:
            threading.Thread(target=self.shutdown, daemon=True).start()
            self.deadline = None

    def heard(self, patience=AWAY):
        self.deadline = time.monotonic() + patience

    def origins(self):
        return ['http://%s:%d' % (host, self.server_port) for host in (ADDRESS, 'localhost')]

    def address(self):
        return '%s/%s/' % (self.origins()[0], self.secret)

    def key_address(self):
        """An address that leads to the page once. A browser is begun with it, since others can see the words of a process."""
        return '%s/open/%s' % (self.origins()[0], self.key)


class Handler(BaseHTTPRequestHandler):
    server_version, sys_version = 'gdsolve-board', ''
    timeout = SLOWEST

    def log_message(self, *_):
        """The address has the secret, so that no request is logged."""

    # Who may ask

    def is_own(self):
        """Whether the request's host and origin are the page's own."""
        hosts = [origin.partition('//')[2] for origin in self.server.origins()]
        host, origin = self.headers.get_all('Host', []), self.headers.get_all('Origin', [])
        if len(self.path) > LONGEST_ADDRESS or not self.path.isascii() or len(host) != 1 or host[0] not in hosts:
            return False
        if origin != ['http://' + host[0]] and (origin or self.command != 'GET'):
            return False
        return self.headers.get('Sec-Fetch-Site', 'none') in ('same-origin', 'none')

    def path_behind_secret(self):
        """What stands behind the secret, or None where the request isn't one of the page's own."""
        _, secret, *rest = self.path.split('/', 2) + ['']
        is_known = len(rest) == 2 and self.is_own() and hmac.compare_digest(secret, self.server.secret)
        return rest[0] if is_known else None

    def has_key(self):
        """Whether the request has the key, which opens once."""
        key = self.server.key
        if key is None or not self.is_own() or not hmac.compare_digest(self.path, '/open/' + key):
            return False
        self.server.key = None
        return True

    def do_GET(self):
        if self.has_key():
            return self.reply(b'', 'text/plain', {'Location': self.server.address()}, 303)
        path = self.path_behind_secret()
        if path is None:
            return self.refuse(403, 'this page is not for you')
        parts = urlsplit(path)
        query = {name: values[0] for name, values in parse_qs(parts.query).items()}
        self.answered(lambda: self.get(parts.path, query))

    def do_POST(self):
        path = self.path_behind_secret()
        if path is None:
            return self.refuse(403, 'this page is not for you')
        length = self.headers.get('Content-Length', '')
        if not re.fullmatch('[0-9]{1,10}', length):
            return self.refuse(411, 'a length is wanted')
        if int(length) > LONGEST_FILE:
            return self.refuse(413, 'a file has at most %d bytes' % LONGEST_FILE)
        body = self.rfile.read(int(length))
        parts = urlsplit(path)
        query = {name: values[0] for name, values in parse_qs(parts.query).items()}
        self.answered(lambda: self.post(parts.path, query, body))

    def answered(self, do):
        try:
            do()
        except Fault as fault:
            self.refuse(400, str(fault))
        except OSError as fault:
            self.refuse(400, fault.strerror or 'the file is not read')

    # What is asked

    def get(self, path, query):
        desk = self.server.desk
        if path in FILES:
            name, kind = FILES[path]
            return self.reply((HERE / name).read_bytes(), kind)
        if path == 'view':
            self.server.heard()
            return self.view(query.get('seen'))
        if path == 'position.sgf':
            return self.reply(desk.sgf().encode(), 'application/x-go-sgf', {'Content-Disposition': 'attachment; filename="position.sgf"'})
        if path == 'thermograph.svg':
            return self.reply(desk.thermograph(query.get('point')).encode(), 'image/svg+xml', {'Content-Security-Policy': PICTURE_POLICY})
        self.refuse(404, 'there is no such page')

    def view(self, seen):
        desk = self.server.desk
        if seen == str(desk.change):
            return self.tell({'change': desk.change, 'same': True, 'working': desk.at_work()})
        self.tell(desk.view())

    def post(self, path, query, body):
        desk = self.server.desk
        if path == 'leave':
            self.server.heard(GRACE)
            return self.tell({})
        self.server.heard()
        if path == 'open':
            desk.do('open', query.get('name', 'file'), body)
        elif path == 'do':
            self.act(body)
        else:
            return self.refuse(404, 'there is no such page')
        desk.settle(SETTLING)
        self.tell(desk.view())

    def act(self, body):
        try:
            given = json.loads(body)
            action = given.pop('action')
            names = ACTIONS[action]
        except (ValueError, KeyError, TypeError, AttributeError, RecursionError):
            raise Fault('there is no such action') from None
        if set(given) != set(names):
            raise Fault('the action %s takes %s' % (action, ', '.join(names) or 'nothing'))
        self.server.desk.do(action, **given)

    # Replies

    def tell(self, data):
        self.reply(json.dumps(data).encode(), 'application/json')

    def refuse(self, status, why):
        self.reply(json.dumps({'fault': why}).encode(), 'application/json', status=status)

    def reply(self, body, kind, headers=(), status=200):
        told = {
            'Content-Type': kind, 'Content-Length': len(body), 'Content-Security-Policy': POLICY, 'X-Content-Type-Options': 'nosniff',
            'Referrer-Policy': 'no-referrer', 'Cache-Control': 'no-store', 'Cross-Origin-Resource-Policy': 'same-origin', **dict(headers)}
        self.send_response(status)
        for name, value in told.items():
            self.send_header(name, str(value))
        self.end_headers()
        self.wfile.write(body)
