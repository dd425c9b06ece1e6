"""The page in a headless Chromium, and what a user does there and sees."""

import base64
import contextlib
import os
import pathlib
import shutil
import subprocess
import sys
import time

from common import PATIENCE, TOP
from script import Fault, program

DEBIAN_PYTHON = '/usr/bin/python3'  # the one that python3-selenium is for
WIDTH, HEIGHT = 1360, 1000


def require():
    """Says what is missing; where another Python has selenium, goes on in that one."""
    try:
        import selenium
    except ImportError:
        if os.path.exists(DEBIAN_PYTHON) and os.path.realpath(sys.executable) != os.path.realpath(DEBIAN_PYTHON):
            os.execv(DEBIAN_PYTHON, [DEBIAN_PYTHON, *sys.argv])
        raise Fault('there is no selenium: apt-get install python3-selenium') from None
    found = shutil.which('chromium') or shutil.which('google-chrome'), shutil.which('chromedriver')
    for path, package in zip(found, ('chromium', 'chromium-driver')):
        if not path:
            raise Fault('there is no %s: apt-get install %s' % (package, package))
    return found


class Page:
    """The page in a browser, and the server behind it."""

    def __init__(self, browser, driver, file, shots, is_dark=False):
        from selenium import webdriver
        from selenium.webdriver.common.action_chains import ActionChains
        from selenium.webdriver.common.by import By
        from selenium.webdriver.common.keys import Keys
        self.by, self.keys, self.chains, self.shots = By, Keys, ActionChains, shots
        options = webdriver.ChromeOptions()
        options.binary_location = browser
        for word in ('--headless=new', '--disable-dev-shm-usage', '--hide-scrollbars', '--window-size=%d,%d' % (WIDTH, HEIGHT)):
            options.add_argument(word)
        if is_dark:
            options.add_argument('--force-dark-mode')
        if os.geteuid() == 0:
            options.add_argument('--no-sandbox')
        options.set_capability('goog:loggingPrefs', {'browser': 'ALL'})
        self.server = subprocess.Popen([TOP / 'gdsolve-board', '--no-browser', '--program', program(), str(file)], stdout=subprocess.PIPE, text=True)
        self.address = self.server.stdout.readline().strip()
        self.driver = webdriver.Chrome(options=options, service=webdriver.chrome.service.Service(driver))
        self.driver.get(self.address)

    def end(self):
        self.driver.quit()
        self.server.terminate()
        self.server.wait()
        self.server.stdout.close()

    # What stands there

    def find(self, selector):
        return self.driver.find_elements(self.by.CSS_SELECTOR, selector)

    def text(self, selector):
        return ' '.join(element.text or element.get_attribute('textContent') for element in self.find(selector))

    def wait(self, what, holds):
        end = time.monotonic() + PATIENCE
        while time.monotonic() < end:
            with contextlib.suppress(Exception):  # an element may have been drawn anew meanwhile
                if holds():
                    return
            time.sleep(0.05)
        raise Fault('%s: it did not come; the page says %r' % (what, self.text('main')[:600]))

    def says(self, selector, text):
        self.wait('%s says %r' % (selector, text), lambda: text in self.text(selector))

    def draws(self, selector, count):
        self.wait('%d of %s' % (count, selector), lambda: len(self.find('#board ' + selector)) == count)

    # What the user does

    def click(self, selector):
        def is_clicked():
            element = self.driver.find_element(self.by.CSS_SELECTOR, selector)
            if not element.is_enabled():
                return False
            self.driver.execute_script('arguments[0].scrollIntoView({block: "center"})', element)
            element.click()
            return True

        self.wait('a click on ' + selector, is_clicked)

    def at(self, point):
        """Where a point of the board is, from the middle of its picture."""
        return self.driver.execute_script(
            'const svg = document.getElementById("board"), m = svg.getScreenCTM(), r = svg.getBoundingClientRect();'
            'const p = new DOMPoint(44 + 42 * arguments[0], 44 + 42 * arguments[1]).matrixTransform(m);'
            'return [p.x - r.x - r.width / 2, p.y - r.y - r.height / 2];', ord(point[0]) - 97, ord(point[1]) - 97)

    def pointer(self, point):
        board = self.driver.find_element(self.by.ID, 'board')
        self.driver.execute_script('arguments[0].scrollIntoView({block: "center"})', board)
        x, y = self.at(point)
        return self.chains(self.driver).move_to_element_with_offset(board, round(x), round(y))

    def strike(self, point):
        self.pointer(point).click().perform()

    def type(self, *keys):
        self.driver.execute_script('document.getElementById("board").focus()')
        self.chains(self.driver).send_keys(*keys).perform()

    def send(self, folder, name):
        """Opens a file of the folder, as by its dialog."""
        self.driver.find_element(self.by.ID, 'file').send_keys(str(pathlib.Path(folder, name)))
        self.says('#name', name)

    def open(self, folder, name, text):
        pathlib.Path(folder, name).write_bytes(text)
        self.send(folder, name)

    def choose(self, name):
        """Opens one of the files that are offered by name."""
        self.driver.execute_script('document.getElementById("names").value = arguments[0]; document.getElementById("choose").click()', name)
        self.says('#name', name)

    def rest(self):
        self.wait('the work ends', lambda: not self.find('#stop')[0].is_displayed())

    def shot(self, name, is_at_work=False):
        """Keeps a picture of the whole page, where pictures are wanted."""
        if self.shots:
            if not is_at_work:
                self.rest()
            self.driver.execute_script('scrollTo(0, 0)')
            picture = self.driver.execute_cdp_cmd('Page.captureScreenshot', {'captureBeyondViewport': True})
            pathlib.Path(self.shots, name + '.png').write_bytes(base64.b64decode(picture['data']))

    def complaints(self):
        return [entry['message'] for entry in self.driver.get_log('browser') if entry['level'] in ('SEVERE', 'WARNING')]


def assert_none(found, what):
    if found:
        raise Fault('%s: %s' % (what, found))
