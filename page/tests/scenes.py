"""What is tried on the page in a browser: each scene takes the page and a folder for files, and ends with a Fault where something isn't as
it should be."""

import pathlib
import shutil

from browser import HEIGHT, WIDTH, assert_none
from common import CORRIDOR, PAIR, TOP
from script import Fault

MARKUP = b'(;GM[1]SZ[3]AB[aa]C[<img src=x onerror=alert(1)>])'
CORRIDOR_OF_13 = b'(;GM[1]SZ[21:2]AB[ba][da][ab:qb]AW[ra][ta][rb:ub])'  # 743,984 positions
TOO_LARGE = b'(;GM[1]SZ[9])'


def answers(page, folder):
    page.says('#answer', 'Black to move; Black wins.')
    page.says('#answer', 'gb (G4) wins up to 4 best')
    page.draws('circle.best', 1)
    page.draws('rect.loses', 2)
    page.says('#said', 'Winning: gb.')
    page.says('.source', 'board, safe, margin, moves, values and line')
    page.pointer('fd').perform()
    page.says('#here', 'fd, F2: empty, open; region fd; a move here loses')
    page.says('#detail', '{1|*}')
    page.wait('the thermograph', lambda: page.driver.execute_script('return document.querySelector("#detail img").naturalWidth > 0'))
    page.shot('answers')


def by_name(page, folder):
    page.driver.find_element(page.by.CSS_SELECTOR, '#names option[value], #names').send_keys('corridor-of-three.sgf')
    page.click('#choose')
    page.says('#name', 'corridor-of-three.sgf')
    page.says('#answer', 'White to move; White wins.')
    page.click('#undo')
    page.says('#name', 'two-stones.sgf')


def dropping(page, folder):
    page.driver.execute_script(
        'const data = new DataTransfer(); data.items.add(new File([arguments[0]], "dropped.sgf"));'
        'document.body.dispatchEvent(new DragEvent("drop", {dataTransfer: data, bubbles: true, cancelable: true}))', CORRIDOR.decode())
    page.says('#name', 'dropped.sgf')
    page.says('#total', '3')
    page.click('#undo')
    page.says('#name', 'two-stones.sgf')


def settings(page, folder):
    page.driver.find_element(page.by.ID, 'turn').send_keys('white')
    page.says('#facts', 'white to move')
    page.says('#answer', 'White to move; White wins.')
    for number in ('3', page.keys.TAB):
        page.driver.find_element(page.by.ID, 'black_prisoners').send_keys(number)
    page.says('#facts', 'prisoners: black 3')
    page.click('#tax')
    page.wait('the tax', lambda: page.find('#tax')[0].is_selected())
    saved = page.driver.execute_async_script('fetch("position.sgf").then((answer) => answer.text()).then(arguments[0])')
    if 'KM[-1.5]' not in saved or 'PL[W]' not in saved:
        raise Fault('the position goes out as %r' % saved)
    for _ in range(3):
        page.click('#undo')
    page.says('#answer', 'Black to move; Black wins.')


def editing(page, folder):
    page.open(folder, 'line.sgf', CORRIDOR)
    page.says('#total', '3')
    page.click('#first')
    page.says('#answer', 'fb (F2) wins')
    page.draws('circle.white', 10)
    page.click('input[value=white]')
    page.strike('fb')
    page.draws('circle.white', 11)
    page.says('#answer', 'eb (E2)')
    page.strike('fb')
    page.draws('circle.white', 10)
    page.click('#undo')
    page.draws('circle.white', 11)
    page.click('#redo')
    page.draws('circle.white', 10)
    page.type('u')
    page.draws('circle.white', 11)
    page.type('r')
    page.draws('circle.white', 10)
    page.wait('nothing to do again', lambda: not page.find('#redo')[0].is_enabled())
    page.click('#undo')
    page.draws('circle.white', 11)
    page.click('#komi')
    page.driver.find_element(page.by.ID, 'komi').clear()
    page.driver.find_element(page.by.ID, 'komi').send_keys('2.5', page.keys.TAB)
    page.says('#facts', 'komi 2.5')
    page.driver.find_element(page.by.ID, 'komi').clear()
    page.driver.find_element(page.by.ID, 'komi').send_keys('6.25', page.keys.TAB)
    page.says('#fault', 'a komi is a whole number')


def by_keys(page, folder):
    page.open(folder, 'line.sgf', CORRIDOR)
    page.draws('circle.black', 16)
    for after in ('2', '1'):
        page.type('[')
        page.wait('a step back', lambda: page.driver.find_element(page.by.ID, 'after').get_attribute('value') == after)
    page.draws('circle.black', 15)
    page.says('#said', 'White to move; White wins.')
    page.type('w', page.keys.HOME, page.keys.ARROW_DOWN, *[page.keys.ARROW_RIGHT] * 5)
    page.says('#here', 'fb, F2')
    page.says('#heard', 'fb, F2')
    page.type(page.keys.ENTER)
    page.draws('circle.white', 11)
    page.says('#here', 'fb, F2: white stone, alive')
    page.type('u')
    page.draws('circle.white', 10)
    page.shot('keys')


def refusal(page, folder):
    page.open(folder, 'pair.sgf', PAIR)
    page.says('#refusals', 'fault cycle ea 1 black:fa white:ea black:fa')
    page.says('#said', 'Refused: fault cycle')
    page.draws('text.number', 2)
    page.draws('.wall.near', 6)
    page.click('#step-next')
    page.says('#step-told', 'After move 1 of 3. This position comes back.')
    page.click('#step-next')
    page.says('#heard', 'After move 2 of 3.')
    page.draws('circle.white.open', 1)
    page.shot('refusal')
    page.click('[id^=remedy-fill_pairs]')
    page.says('#answer', 'Black to move; White wins.')
    page.wait('the refusal goes', lambda: not page.find('#refusals')[0].is_displayed())
    page.click('#undo')
    page.says('#refusals', 'fault cycle')
    page.open(folder, 'large.sgf', TOO_LARGE)
    page.says('#refusals', 'fault region aa points 81')


def line_of_play(page, folder):
    page.open(folder, 'line.sgf', CORRIDOR)
    page.click('#first')
    page.says('#play', 'black fb (F2)')
    page.draws('rect.loses', 1)
    page.click('#step-next')
    page.says('#step-told', 'After stone 1 of 1. Black wins up to komi 1')
    page.draws('circle.black', 15)
    page.draws('text.number', 1)
    page.draws('rect.loses', 0)
    page.strike('eb')
    page.says('#fault', 'A later step is shown')
    page.shot('line')
    page.click('#step-first')
    page.draws('circle.black', 14)


def long_work(page, folder):
    page.open(folder, 'corridor.sgf', CORRIDOR_OF_13)
    page.says('#refusals', 'positions over 100000')
    page.click('[id^=remedy-positions]')
    page.says('#work', 'at work on')
    page.shot('work', is_at_work=True)
    page.click('#stop')
    page.says('#refusals', 'The work was stopped.')
    page.click('[id^=remedy-again]')
    page.says('#work', 'at work on')
    page.click('input[value=black]')
    page.strike('ea')
    page.draws('circle.black', 20)
    page.click('#stop')
    page.rest()


def markup(page, folder):
    page.open(folder, '<b>bold<b>.sgf', MARKUP)
    page.says('#facts', 'black to move')
    assert_none(page.find('main img[src=x], #name b'), 'markup of a file')


def playing(page, folder):
    shutil.copy(TOP / 'examples/two-stones.sgf', folder)
    page.driver.find_element(page.by.ID, 'file').send_keys(str(pathlib.Path(folder, 'two-stones.sgf')))
    page.says('#answer', 'Black to move; Black wins.')
    page.click('#play-white')
    page.says('#game-lines', 'black gb (G4), the program')
    page.says('#turn-told', 'Your move, as white.')
    page.draws('circle.last', 1)
    page.strike('gb')
    page.says('#game', 'Refused: a stone stands there.')
    page.strike('fb')
    page.says('#game-lines', 'white fb (F4), you')
    page.says('#turn-told', 'Your move, as white.')
    page.shot('playing')
    page.type('u')
    page.wait('the move is taken back', lambda: 'you' not in page.text('#game-lines') and 'black gb' in page.text('#game-lines'))
    turns = [lambda: page.strike('fb'), lambda: page.type('s'), lambda: page.strike('gd'), lambda: page.click('#half'),
             lambda: page.type('s'), lambda: page.type('s')]
    for number, turn in enumerate(turns, 1):
        page.wait('turn %d' % number, lambda: page.text('#turn-told') == 'Your move, as white.')
        turn()
        page.wait('move %d' % number, lambda: page.text('#game-lines').count('you') == number)
    page.says('#turn-told', 'Black wins.')
    page.click('#end-game')
    page.says('#answer', 'Black to move; Black wins.')


def narrow(page, folder):
    page.driver.set_window_size(500, HEIGHT)
    wide = page.driver.execute_script('return document.documentElement.scrollWidth - document.documentElement.clientWidth')
    page.shot('narrow')
    page.driver.set_window_size(WIDTH, HEIGHT)
    if wide > 0:
        raise Fault('a narrow window is %d pixels too narrow' % wide)


def ending(page, folder):
    found = [message for message in page.complaints() if '400 (Bad Request)' not in message]
    assert_none(found, 'complaints of the browser')
    page.driver.get('about:blank')
    page.wait('the server ends with the page', lambda: page.server.poll() is not None)
