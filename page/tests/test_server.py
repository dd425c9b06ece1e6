"""The server: who is answered, and with what."""

import http.client
import json
import pathlib
import re
import signal
import socket
import subprocess
import sys
import tempfile
import threading
import time
import unittest

import common
import answers
import server as page
from common import NEUTRAL, wait_for
from desk import Desk
from engine import Limits
from position import LONGEST_FILE, Position
from script import Fault, program
from server import Server


class AtServer(unittest.TestCase):
    def setUp(self):
        self.desk = Desk(program(), Limits(), {}, Position(NEUTRAL, '<b>name</b>'))
        self.addCleanup(self.desk.close)
        self.server = Server(self.desk)
        self.addCleanup(self.server.server_close)
        self.thread = threading.Thread(target=lambda: self.server.serve_forever(poll_interval=0.05), daemon=True)
        self.thread.start()
        self.addCleanup(self.server.shutdown)
        self.host = '127.0.0.1:%d' % self.server.server_port
        self.top = '/%s/' % self.server.secret

    def ask(self, method, path, body=None, **headers):
        """Status, headers and body of the answer; a header that is given as None isn't sent."""
        told = {'Host': self.host, **({'Origin': 'http://' + self.host} if method == 'POST' else {})}
        told.update({name.replace('_', '-'): value for name, value in headers.items()})
        connection = http.client.HTTPConnection('127.0.0.1', self.server.server_port, timeout=10)
        try:
            connection.putrequest(method, path, skip_host=True, skip_accept_encoding=True)
            if body is not None and 'Content-Length' not in told:
                told['Content-Length'] = str(len(body))
            for name, value in told.items():
                if value is not None:
                    connection.putheader(name, value)
            connection.endheaders(body)
            answer = connection.getresponse()
            return answer.status, answer.headers, answer.read()
        finally:
            connection.close()

    def act(self, **given):
        return self.ask('POST', self.top + 'do', json.dumps(given).encode())


class Who(AtServer):
    def test_the_page_is_answered(self):
        for path in ('', 'page.css', 'page.js', 'view', 'position.sgf'):
            self.assertEqual(self.ask('GET', self.top + path)[0], 200, path)

    def test_nobody_without_the_secret(self):
        for path in ('/', '/view', '//view', '/x/view', self.top[:-2] + '/view', self.top.upper() + 'view', '/' + 'a' * 1000, '/é/'.encode().decode('latin-1')):
            status, _, body = self.ask('GET', path.replace('\xc3', '%c3').replace('\xa9', '%a9'))
            self.assertEqual(status, 403, path)
            self.assertNotIn(self.server.secret.encode(), body)

    def test_nobody_under_another_host(self):
        for host in ('evil.example', 'evil.example:%d' % self.server.server_port, '127.0.0.1', '127.0.0.1:1', None):
            self.assertEqual(self.ask('GET', self.top, Host=host)[0], 403, host)
        self.assertEqual(self.ask('GET', self.top, Host='localhost:%d' % self.server.server_port)[0], 200)

    def test_nobody_of_another_origin(self):
        for origin in ('http://evil.example', 'null', 'https://' + self.host, 'http://localhost:%d' % self.server.server_port, ''):
            self.assertEqual(self.ask('POST', self.top + 'do', b'{"action":"undo"}', Origin=origin)[0], 403, origin)
            self.assertEqual(self.ask('GET', self.top + 'view', Origin=origin)[0], 403, origin)
        self.assertEqual(self.ask('POST', self.top + 'do', b'{"action":"undo"}', Origin=None)[0], 403)
        self.assertEqual(self.ask('GET', self.top + 'view', Sec_Fetch_Site='cross-site')[0], 403)

    def test_the_key_opens_once(self):
        key = '/open/' + self.server.key
        self.assertEqual(self.ask('GET', key, Host='evil.example')[0], 403)
        self.assertEqual(self.ask('GET', '/open/None')[0], 403)
        status, headers, _ = self.ask('GET', key)
        self.assertEqual((status, headers['Location']), (303, self.server.address()))
        self.assertEqual(self.ask('GET', key)[0], 403)
        self.assertEqual(self.ask('GET', '/open/None')[0], 403)

    def test_only_this_machine(self):
        self.assertEqual(self.server.server_address[0], '127.0.0.1')

    def test_other_methods(self):
        for method in ('PUT', 'DELETE', 'OPTIONS', 'HEAD'):
            self.assertEqual(self.ask(method, self.top)[0], 501)


class What(AtServer):
    def test_no_path_leads_out(self):
        for path in ('../server.py', '..%2fserver.py', 'server.py', 'tests/common.py', '/etc/passwd', 'page.css/', './page.css', '%00'):
            self.assertEqual(self.ask('GET', self.top + path)[0], 404, path)
        self.assertEqual(self.act(action='choose', name='../../README.md')[0], 400)

    def test_headers_keep_the_page_to_itself(self):
        for path in ('', 'view', 'page.js'):
            headers = self.ask('GET', self.top + path)[1]
            self.assertIn("default-src 'none'", headers['Content-Security-Policy'])
            self.assertNotIn('unsafe', headers['Content-Security-Policy'])
            self.assertEqual((headers['X-Content-Type-Options'], headers['Referrer-Policy']), ('nosniff', 'no-referrer'))
            self.assertIsNone(headers['Access-Control-Allow-Origin'])

    def test_names_are_data(self):
        _, headers, body = self.ask('GET', self.top + 'view')
        self.assertEqual(headers['Content-Type'], 'application/json')
        self.assertEqual(json.loads(body)['name'], '<b>name</b>')

    def test_a_file_is_opened(self):
        status, _, body = self.ask('POST', self.top + 'open?name=a%20b.sgf', b'(;SZ[5]AB[aa])')
        self.assertEqual((status, json.loads(body)['name']), (200, 'a b.sgf'))
        wait_for(lambda: (self.desk.view()['board'] or {}).get('rows', [''])[0] == 'X....')

    def test_lengths_are_bounded(self):
        self.assertEqual(self.ask('POST', self.top + 'open', b'', Content_Length=str(LONGEST_FILE + 1))[0], 413)
        for length in ('-1', 'x', '', None):
            self.assertEqual(self.ask('POST', self.top + 'open', None, Content_Length=length)[0], 411, length)
        self.assertEqual(self.ask('POST', self.top + 'do', b'', Content_Length=str(LONGEST_FILE + 1))[0], 413)
        self.assertEqual(self.desk.view()['undo'], 0)
        self.assertEqual(self.ask('POST', self.top + 'open', b' ' * LONGEST_FILE)[0], 200)
        self.assertEqual(self.desk.view()['undo'], 1)

    def test_the_page_has_the_same_bound(self):
        self.assertIn('size > %d)' % LONGEST_FILE, (common.TOP / 'page/page.js').read_text())

    def test_actions_are_those_of_the_list(self):
        for given in (b'', b'x', b'[]', b'{}', b'{"action":1}', b'{"action":"close"}', b'{"action":"view"}', b'{"action":"edit"}', b'[' * 100000,
                      b'{"action":"edit","point":"aa","colour":"black","more":1}', b'{"action":["undo"]}', b'{"action":"edit","point":{},"colour":[]}',
                      b'{"action":"new","columns":26,"rows":1}', b'{"action":"configure","options":3}', b'{"action":"play","move":"aa"}',
                      b'{"action":"begin_game","engine":"red"}', b'{"action":"choose","name":[]}', b'{"action":"edit","point":"aa","colour":{}}'):
            self.assertEqual(self.ask('POST', self.top + 'do', given)[0], 400, given[:60])
        self.assertEqual(self.act(action='new', columns=5, rows=5)[0], 200)

    def test_what_the_page_sends_is_in_the_list(self):
        scripts = ''.join((page.HERE / name).read_text() for name in page.FILES if name.endswith('.js'))
        sent = {name for asked in re.findall(r'action: ([^,}]*)', scripts) for name in re.findall("'([a-z_]+)'", asked)}
        self.assertEqual(sent, set(page.ACTIONS))

    def test_territory_is_marked_and_a_ko_admitted(self):
        def shown(**given):
            status, _, body = self.act(**given)
            self.assertEqual(status, 200, body)
            return json.loads(body)
        shown(action='new', columns=2, rows=1)
        self.assertEqual(shown(action='mark', point='aa', colour='white')['marks'], {'aa': 'white', 'ba': 'white'})
        self.assertTrue(shown(action='configure', options={'cycles': True})['options']['cycles'])
        shown(action='undo')
        self.assertEqual(shown(action='undo')['marks'], {})

    def test_a_position_goes_out_as_a_download(self):
        _, headers, body = self.ask('GET', self.top + 'position.sgf')
        self.assertIn('attachment', headers['Content-Disposition'])
        self.assertTrue(body.startswith(b'(;GM[1]'))

    def test_what_was_seen_isn_t_sent_again(self):
        view = wait_for(lambda: (lambda seen: None if seen['working'] or not seen['values'] else seen)(self.desk.view()))
        answer = json.loads(self.ask('GET', self.top + 'view?seen=%d' % view['change'])[2])
        self.assertEqual((answer['same'], 'board' in answer), (True, False))

    def test_a_thermograph(self):
        wait_for(lambda: self.desk.view()['values'])
        status, headers, body = self.ask('GET', self.top + 'thermograph.svg?point=ea')
        self.assertEqual((status, headers['Content-Type']), (200, 'image/svg+xml'))
        self.assertEqual(self.ask('GET', self.top + 'thermograph.svg?point=../ea')[0], 400)


class HowLong(AtServer):
    def test_a_request_that_doesn_t_come_holds_nobody_up(self):
        idle = socket.create_connection(('127.0.0.1', self.server.server_port))
        self.addCleanup(idle.close)
        self.assertEqual(self.ask('GET', self.top)[0], 200)

    def test_it_ends_with_the_page(self):
        self.assertIsNone(self.server.deadline)
        self.ask('GET', self.top + 'view')
        self.assertGreater(self.server.deadline, time.monotonic() + page.AWAY - 10)
        self.ask('POST', self.top + 'leave', b'')
        self.assertLess(self.server.deadline, time.monotonic() + page.GRACE + 1)
        self.server.deadline = time.monotonic()
        self.thread.join(5)
        self.assertFalse(self.thread.is_alive())

    def test_a_page_that_is_loaded_again_keeps_it(self):
        self.ask('POST', self.top + 'leave', b'')
        self.ask('GET', self.top + 'view')
        self.assertGreater(self.server.deadline, time.monotonic() + page.GRACE + 1)


class Script(unittest.TestCase):
    def begin(self, *words):
        begun = subprocess.Popen([sys.executable, common.TOP / 'gdsolve-board', '--no-browser', '--program', *words], stdout=subprocess.PIPE, text=True)
        self.addCleanup(begun.stdout.close)
        self.addCleanup(begun.wait)
        self.addCleanup(begun.kill)
        self.assertRegex(begun.stdout.readline(), r'^http://127\.0\.0\.1:[0-9]+/[-_A-Za-z0-9]{32}/\n$')
        return begun

    def test_the_address_is_printed_and_an_interrupt_ends_it(self):
        for number, status in ((signal.SIGINT, 130), (signal.SIGTERM, 143)):
            begun = self.begin(program())
            begun.send_signal(number)
            self.assertEqual(begun.wait(10), status)

    def test_what_it_began_ends_with_it(self):
        with tempfile.TemporaryDirectory() as folder:
            log = pathlib.Path(folder, 'log')
            idle = common.script(folder, 'idle', "import os, time\nopen(%r, 'w').write(str(os.getpid()))\ntime.sleep(60)\n" % str(log))
            begun = self.begin(idle)
            pid = wait_for(lambda: log.exists() and log.read_text())
            begun.send_signal(signal.SIGTERM)
            begun.wait(10)
            wait_for(lambda: not pathlib.Path('/proc', pid).exists())

    def test_a_file_that_is_named_is_bounded(self):
        with tempfile.TemporaryDirectory() as folder:
            large = pathlib.Path(folder, 'large.sgf')
            large.write_bytes(NEUTRAL.ljust(LONGEST_FILE + 1))
            words = [sys.executable, common.TOP / 'gdsolve-board', '--no-browser', '--program', program(), large]
            done = subprocess.run(words, stdin=subprocess.DEVNULL, capture_output=True, text=True, timeout=10)
            self.assertEqual((done.returncode, done.stdout, done.stderr), (1, '', 'gdsolve-board: large.sgf has more than 1048576 bytes\n'))

    def test_only_files_of_the_folder_are_offered(self):
        with tempfile.TemporaryDirectory() as folder:
            pathlib.Path(folder, 'outside.sgf').write_bytes(NEUTRAL)
            inner = pathlib.Path(folder, 'inner')
            inner.mkdir()
            (inner / 'a.sgf').write_bytes(NEUTRAL)
            (inner / 'link.sgf').symlink_to('../outside.sgf')
            (inner / 'note.txt').write_text('no record')
            offered = answers.script('gdsolve-board').offered
            self.assertEqual(sorted(offered(inner)[0]), ['a.sgf'])
            self.assertEqual(sorted(offered(inner / 'a.sgf')[0]), ['a.sgf'])
            (inner / 'a.sgf').unlink()
            with self.assertRaises(Fault):
                offered(inner)


if __name__ == '__main__':
    unittest.main()
