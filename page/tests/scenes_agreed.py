"""Scenes with marked territory and with kos."""

import shutil

from common import PAIR, TOP, WALLS
from script import Fault

EXAMPLES = TOP / 'examples'


def is_chosen(page, name):
    return page.find('#' + name)[0].is_selected()


def marking(page, folder):
    page.open(folder, 'walls.sgf', WALLS)
    page.says('#refusals', 'fault region aa positions over 100000')
    page.click('input[value=mark-black]')
    page.strike('aa')
    page.draws('rect.marked.black', 6)
    page.wait('the switch', lambda: is_chosen(page, 'territory'))
    page.strike('ca')
    page.says('#fault', 'a stone of the colour stands there')
    page.click('input[value=mark-white]')
    page.strike('ga')
    page.draws('rect.marked.white', 6)
    page.says('#answer', 'Black to move; Black wins.')
    page.draws('.best', 6)  # three moves, each a circle and a text
    page.pointer('ga').perform()
    page.says('#here', "ga, G3: empty, White's point; marked as White's territory")
    page.shot('marking')
    page.click('input[value=white]')
    page.strike('bb')
    page.draws('circle.dead.white', 1)
    page.says('#facts', 'prisoners: black 1')
    page.says('#answer', 'Black wins up to 1')
    page.says('#here', "bb, B2: empty, Black's point, a dead white stone; marked as Black's territory")
    page.shot('dead-stone')
    page.click('#territory')
    page.says('#refusals', 'fault region aa positions over 100000')
    page.draws('rect.marked', 12)
    page.shot('marks-not-taken')
    page.click('[id^=remedy-territory]')
    page.says('#answer', 'Black to move; Black wins.')
    page.driver.find_element(page.by.ID, 'komi').clear()
    page.driver.find_element(page.by.ID, 'komi').send_keys('0.5', page.keys.TAB)
    page.says('#facts', 'komi 0.5')
    page.says('#answer', 'Black to move; Black wins.')
    for marks in (12, 12, 12, 12, 6, 0):
        page.click('#undo')
        page.draws('rect.marked', marks)
    page.wait('the switch goes back', lambda: not is_chosen(page, 'territory'))
    for marks in (6, 12):
        page.click('#redo')
        page.draws('rect.marked', marks)
    page.says('#answer', 'Black to move; Black wins.')
    saved = page.driver.execute_async_script('fetch("position.sgf").then((answer) => answer.text()).then(arguments[0])')
    if 'TB[aa' not in saved or 'TW[fa' not in saved:
        raise Fault('the marks go out as %r' % saved)
    page.click('#tax')
    page.says('#fault', 'a tax and marked territory do not go together')
    page.wait('the tax stays off', lambda: not is_chosen(page, 'tax'))


def marking_by_keys(page, folder):
    page.open(folder, 'walls.sgf', WALLS)
    page.says('#refusals', 'fault region aa')
    page.type('m', page.keys.HOME, page.keys.ENTER)
    page.says('#heard', 'marked')
    page.draws('rect.marked.black', 6)
    page.type('n')
    page.says('#heard', "A click marks White's territory")
    page.type(*[page.keys.ARROW_RIGHT] * 6, page.keys.ENTER)
    page.says('#here', "ga, G3: empty, White's point; marked as White's territory")
    page.draws('rect.marked.white', 6)
    page.says('#said', 'Black to move; Black wins.')
    page.type(page.keys.ENTER)
    page.draws('rect.marked.white', 5)
    page.type('u')
    page.draws('rect.marked.white', 6)
    page.type('u', 'u')
    page.draws('rect.marked', 0)
    page.type('r', 'r')
    page.draws('rect.marked', 12)
    page.says('#drawing', 'b b X . O w w')


def marks_of_a_file(page, folder):
    shutil.copy(EXAMPLES / 'marked-game.sgf', folder)
    page.send(folder, 'marked-game.sgf')
    page.says('#refusals', 'fault region aa points 81')
    page.click('[id^=remedy-territory]')
    page.says('#refusals', 'fault cycle')
    page.wait('the switch', lambda: is_chosen(page, 'territory'))
    page.click('[id^=remedy-cycles]')
    page.says('#answer', 'Black to move; Black wins.')
    page.says('#answer', 'up to 26.5, White above 28.5')
    page.click('#region-bi')
    page.says('#detail', '{{1|1}|0}')
    page.shot('marks-of-a-file')
    page.click('#first')
    page.says('#refusals', 'fault region aa points 81')
    page.click('#undo')
    page.says('#answer', 'Black to move; Black wins.')


def kos(page, folder):
    page.open(folder, 'pair.sgf', PAIR)
    page.says('#refusals', 'fault cycle')
    page.click('[id^=remedy-cycles]')
    page.says('#answer', 'Black to move; nobody wins.')
    page.wait('the switch', lambda: is_chosen(page, 'cycles'))
    page.says('#answer', 'up to -0.5, White above 1')
    page.says('#answer', 'in between nobody does')
    page.draws('circle.best', 1)
    page.draws('rect.loses', 1)
    page.click('#region-ea')
    page.says('#detail', 'value for Black')
    page.says('#detail', 'value for White')
    page.wait('the thermographs', lambda: page.driver.execute_script('return document.querySelector("#detail img").naturalWidth > 0'))
    page.pointer('fa').perform()
    page.says('#here', 'a move here lets nobody win')
    page.shot('kos')
    page.click('#cycles')
    page.says('#refusals', 'fault cycle')
    page.click('#undo')
    page.says('#answer', 'nobody wins')
    page.click('#undo')
    page.says('#refusals', 'fault cycle')
    page.type('r')
    page.says('#said', 'Black to move; nobody wins.')
    page.type('r')
    page.says('#said', 'Refused: fault cycle')
    page.wait('the switch goes off', lambda: not is_chosen(page, 'cycles'))


def playing_a_ko(page, folder):
    page.open(folder, 'pair.sgf', PAIR)
    page.click('[id^=remedy-cycles]')
    page.says('#game', 'There is no ko rule')
    page.click('#play-white')
    page.says('#game-lines', 'fa')
    page.draws('circle.last', 1)
    turns = [lambda: page.strike('ea'), lambda: page.type('s'), lambda: page.click('#spend'), lambda: page.type('s')]
    for number, turn in enumerate(turns, 1):
        page.wait('turn %d' % number, lambda: page.text('#turn-told') == 'Your move, as white.')
        turn()
        page.wait('move %d' % number, lambda: page.text('#game-lines').count('you') == number)
        if number == 1:
            page.says('#game-lines', 'black fa (F2), the program\nwhite ea (E2), you\nblack fa (F2), the program')
            page.shot('playing-a-ko')
            page.type('u')
            page.wait('the move is taken back', lambda: 'you' not in page.text('#game-lines'))
            page.wait('turn 1 again', lambda: page.text('#turn-told') == 'Your move, as white.')
            page.strike('ea')
            page.wait('move 1 again', lambda: page.text('#game-lines').count('you') == 1)
    page.says('#turn-told', 'Black wins.')
    page.wait('the last move is in sight', lambda: page.driver.execute_script(
        'const list = document.getElementById("game-lines");'
        'return list.scrollTop > 0 && list.scrollHeight - list.scrollTop - list.clientHeight < 2;'))
    page.shot('a-ko-won')
    page.click('#end-game')
    page.says('#answer', 'nobody wins')
