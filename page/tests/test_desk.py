"""The desk: what is asked, in which order, and what is given up; editing, refusals and games."""

import pathlib
import tempfile
import time
import unittest

import common
from common import CORRIDOR, NEUTRAL, PAIR, SETTLED, WALLS, wait_for
from desk import Desk
from engine import Limits
from position import LONGEST_FILE, Position
from script import Fault, program

# A program that notes when it begins, takes its time and ends: who is given up never ends.
SLOW = """
import os, sys, time
log = open(%r, 'a')
print('begun', os.getpid(), sys.argv[1], file=log, flush=True)
time.sleep(%r)
print('size 9 9\\nside black\\nkomi 0\\nprisoners black 0\\nprisoners white 0' + '\\nrow .........' * 9)
print('ended', os.getpid(), file=log, flush=True)
"""


IDLE = 'import time\ntime.sleep(60)\n'


class AtDesk(unittest.TestCase):
    def desk(self, text, solver=None, limits=Limits(20, 2048, 20), **options):
        desk = Desk(solver or program(), limits, {}, Position(text, 'test', **options))
        self.addCleanup(desk.close)
        return desk

    def settled(self, desk):
        """What the page shows when all work is done."""
        def view():
            seen = desk.view()
            with desk.lock:
                return seen if desk.is_settled() and seen['change'] == desk.change else None
        return wait_for(view)


class Answers(AtDesk):
    def test_a_position_is_answered(self):
        view = self.settled(self.desk(NEUTRAL))
        self.assertEqual(view['refusals'], [])
        self.assertEqual(view['board']['rows'][0], '.X.X.OO.O.')
        self.assertEqual(view['moves']['moves'][0]['move'], 'ea')
        self.assertTrue(view['moves']['moves'][0]['best'])
        self.assertIn('Black to move; Black wins. Winning: ea', view['summary'])
        self.assertEqual(view['values'][0]['point'], 'ea')

    def test_kos_are_admitted(self):
        desk = self.desk(PAIR)
        self.assertIn('cycles', self.settled(desk)['refusals'][0]['remedies'])
        desk.do('configure', {'cycles': True})
        view = self.settled(desk)
        self.assertEqual((view['refusals'], view['moves']['winner'], view['line']), ([], 'none', None))
        self.assertEqual([value['label'] for value in view['values'][0]['values']], ['low', 'high'])

    def test_territory_is_marked(self):
        desk = self.desk(WALLS)
        self.settled(desk)
        desk.do('mark', 'aa', 'black')
        desk.do('mark', 'ga', 'white')
        view = self.settled(desk)
        self.assertEqual((view['refusals'], view['marks']['aa'], view['marks']['ga']), ([], 'black', 'white'))
        self.assertEqual([counted['points'] for counted in view['safe']['counted']], [6, 6])
        desk.do('edit', 'da', 'black')
        self.assertEqual(self.settled(desk)['board']['rows'][0], '..XXO..')
        self.assertIn('TB[aa]', desk.sgf())

    def test_marks_stay_with_other_options(self):
        desk = self.desk(WALLS)
        self.settled(desk)
        desk.do('mark', 'aa', 'black')
        desk.do('mark', 'ga', 'white')
        desk.do('configure', {'komi': '1.5'})
        view = self.settled(desk)
        self.assertEqual((view['refusals'], view['board']['komi'], len(view['marks'])), ([], '1.5', 12))
        desk.do('configure', {'territory': False})
        view = self.settled(desk)
        self.assertEqual((len(view['refusals']), len(view['marks'])), (1, 12))
        desk.do('edit', 'fa', 'white')
        self.assertEqual(len(self.settled(desk)['marks']), 12)

    def test_dead_stones_and_seals_are_told(self):
        desk = self.desk(b'(;SZ[7:3]AB[ca][cc][ga]AW[ea:ec]TB[aa:bc][cb]TW[fa:gc])', territory=True)
        view = self.settled(desk)
        self.assertEqual((view['dead'], view['seals']), ({'ga': 'black'}, {'cb': 'black'}))
        self.assertEqual(view['board']['rows'], ['..X.O..'] * 3)
        self.assertEqual(view['board']['prisoners'], {'black': 1, 'white': 1})

    def test_a_thermograph_is_drawn(self):
        desk = self.desk(NEUTRAL)
        self.settled(desk)
        self.assertIn('mean 0', desk.thermograph('ea'))
        with self.assertRaises(Fault):
            desk.thermograph('zz')

    def test_steps_of_the_main_line(self):
        desk = self.desk(CORRIDOR)
        self.assertEqual(self.settled(desk)['record'], {'played': 3, 'total': 3})
        desk.do('configure', {'after': 1})
        view = self.settled(desk)
        self.assertEqual(view['record'], {'played': 1, 'total': 3})
        self.assertEqual(view['board']['rows'][1], 'XXXXX.OOOO')

    def test_a_file_that_is_none(self):
        view = self.settled(self.desk(b'<script>'))
        self.assertEqual(view['refusals'][0]['line'], 'fault file no tree')
        self.assertIsNone(view['board'])


    def test_no_work_is_waited_for_longer_than_told(self):
        with tempfile.TemporaryDirectory() as folder:
            desk = self.desk(NEUTRAL, common.script(folder, 'idle', IDLE))
            begun = time.monotonic()
            desk.settle(0.2)
            self.assertTrue(0.2 <= time.monotonic() - begun < 5)
            self.assertEqual((desk.view()['board'], desk.view()['reading']), (None, True))
            desk.do('stop')
            desk.settle(10)
            self.assertFalse(desk.view()['reading'])
            with self.assertRaises(Fault):
                desk.do('edit', 'aa', 'black')

    def test_a_board_that_the_page_wrote_is_shown_where_the_program_refuses_it(self):
        desk = self.desk(b'(;SZ[2]AB[aa][bb])')
        desk.do('edit', 'ba', 'white')
        view = self.settled(desk)
        self.assertEqual(view['refusals'][0]['line'], 'fault file no liberty at ba')
        self.assertEqual((view['board']['rows'], view['board']['unread']), (['XO', '.X'], True))
        desk.do('edit', 'ba', None)
        self.assertEqual(self.settled(desk)['board']['rows'], ['X.', '.X'])

    def test_many_rectangles_are_the_program_s_work(self):
        desk = self.desk(b'(;SZ[9]' + b'AB[aa:ii]AE[aa:ii]' * 2_000 + b')')
        desk.do('edit', 'aa', 'black')
        self.assertEqual(self.settled(desk)['board']['rows'][0], 'X........')


class Editing(AtDesk):
    def test_stones_and_undo(self):
        desk = self.desk(NEUTRAL)
        desk.do('edit', 'ea', 'black')
        self.assertEqual(self.settled(desk)['board']['rows'][0], '.X.XXOO.O.')
        desk.do('undo')
        self.assertEqual(self.settled(desk)['board']['rows'][0], '.X.X.OO.O.')
        with self.assertRaises(Fault):
            desk.do('undo')

    def test_what_was_undone_is_done_again(self):
        desk = self.desk(NEUTRAL)
        with self.assertRaises(Fault):
            desk.do('redo')
        desk.do('edit', 'ea', 'black')
        desk.do('configure', {'komi': '3.5'})
        for _ in range(2):
            desk.do('undo')
        self.assertEqual(desk.view()['redo'], 2)
        desk.do('redo')
        self.assertEqual(self.settled(desk)['board']['rows'][0], '.X.XXOO.O.')
        desk.do('redo')
        self.assertEqual(self.settled(desk)['board']['komi'], '3.5')
        desk.do('undo')
        desk.do('edit', 'ea', None)
        self.assertEqual(desk.view()['redo'], 0)

    def test_a_setting_is_undone_too(self):
        desk = self.desk(NEUTRAL)
        desk.do('configure', {'komi': '3.5', 'turn': 'white'})
        view = self.settled(desk)
        self.assertEqual((view['board']['komi'], view['board']['side']), ('3.5', 'white'))
        desk.do('undo')
        self.assertEqual(self.settled(desk)['board']['komi'], '0')

    def test_what_is_written_reads_as_the_same_board(self):
        desk = self.desk(CORRIDOR)
        self.assertEqual(common.board_rows(desk.sgf().encode()), common.board_rows(CORRIDOR))

    def test_a_file_is_bounded(self):
        with tempfile.TemporaryDirectory() as folder:
            large = pathlib.Path(folder, 'large.sgf')
            large.write_bytes(NEUTRAL.ljust(LONGEST_FILE + 1))
            desk = self.desk(NEUTRAL)
            desk.files = {'large.sgf': large}
            with self.assertRaises(Fault):
                desk.do('choose', 'large.sgf')
            with self.assertRaises(Fault):
                desk.do('open', 'large.sgf', large.read_bytes())
            self.assertEqual(desk.view()['undo'], 0)
            desk.do('open', 'large.sgf', NEUTRAL.ljust(LONGEST_FILE))
            self.assertEqual(self.settled(desk)['board']['rows'][0], '.X.X.OO.O.')

    def test_files_by_name_alone(self):
        with tempfile.TemporaryDirectory() as folder:
            pathlib.Path(folder, 'in.sgf').write_bytes(PAIR)
            pathlib.Path(folder, 'out.sgf').write_bytes(PAIR)
            desk = self.desk(NEUTRAL)
            desk.files = {'in.sgf': pathlib.Path(folder, 'in.sgf')}
            desk.do('choose', 'in.sgf')
            self.assertEqual(desk.view()['name'], 'in.sgf')
            for name in ('out.sgf', '../out.sgf', str(pathlib.Path(folder, 'out.sgf')), ''):
                with self.assertRaises(Fault):
                    desk.do('choose', name)


class Refusals(AtDesk):
    def test_a_cycle_is_drawn_step_by_step(self):
        view = self.settled(self.desk(PAIR))
        self.assertEqual((view['refusals'][0]['at'], len(view['refusals'][0]['moves']), len(view['steps'])), ('ea', 3, 4))
        rows = [step['rows'][0] for step in view['steps']]
        self.assertEqual(rows, ['.X.X..O.O.', '.X.X.XO.O.', '.X.XO.O.O.', '.X.X.XO.O.'])
        self.assertIsNone(view['moves'])

    def test_a_pair_is_filled(self):
        desk = self.desk(PAIR)
        self.assertEqual(self.settled(desk)['pair'], ['ea', 'fa'])
        desk.do('fill_pairs')
        view = self.settled(desk)
        self.assertEqual((view['board']['rows'][0], view['refusals']), ('.X.XXOO.O.', []))
        desk.do('undo')
        self.assertEqual(self.settled(desk)['board']['rows'][0], '.X.X..O.O.')

    def test_a_position_is_closed_by_the_marks_of_its_file(self):
        desk = self.desk(b'(;SZ[7:2]KM[6.5]AB[ba][ca][ab:cb]AW[ea][fa][eb:gb];B[da];W[];TB[aa]TW[ga])', after=0)
        self.assertEqual(self.settled(desk)['closing'], "the file's own marks")
        desk.do('close_position')
        view = self.settled(desk)
        self.assertIn('Closed.', view['note'])
        self.assertEqual(view['refusals'], [])

    def test_limits_are_told_by_their_names(self):
        desk = self.desk((common.TOP / 'docs/positions/game.sgf').read_bytes(), after=38)
        self.assertEqual(self.settled(desk)['refusals'][0]['line'], 'fault region aa points 81')

    def test_time_is_limited(self):
        with tempfile.TemporaryDirectory() as folder:
            program = common.script(folder, 'busy', 'while True: pass\n')
            view = self.settled(self.desk(NEUTRAL, program, Limits(1, 2048, 20)))
            self.assertIn('1 seconds of the processor', view['refusals'][0]['line'])
            program = common.script(folder, 'idle', 'import time\ntime.sleep(60)\n')
            view = self.settled(self.desk(NEUTRAL, program, Limits(20, 2048, 1)))
            self.assertEqual(view['refusals'][0]['line'], 'stopped after 1 seconds')

    def test_memory_is_limited(self):
        with tempfile.TemporaryDirectory() as folder:
            program = common.script(folder, 'large', 'import sys\ntry:\n    bytearray(1 << 30)\nexcept MemoryError:\n    sys.exit(8)\n')
            view = self.settled(self.desk(NEUTRAL, program, Limits(20, 512, 20)))
            self.assertEqual(view['refusals'][0]['line'], 'memory was refused')


class Lines(AtDesk):
    def test_the_line_is_drawn_step_by_step(self):
        desk = self.desk(CORRIDOR, after=0)
        view = self.settled(desk)
        self.assertEqual(view['line'], {'threshold': '1', 'moves': [{'colour': 'black', 'point': 'fb'}]})
        self.assertEqual([step['rows'][1] for step in view['steps']], ['XXXX..OOOO', 'XXXX.XOOOO'])

    def test_nothing_is_hot(self):
        view = self.settled(self.desk(SETTLED))
        self.assertEqual((view['line']['moves'], view['steps']), ([], []))


class OneAtATime(AtDesk):
    def test_clicks_don_t_pile_up(self):
        with tempfile.TemporaryDirectory() as folder:
            log = pathlib.Path(folder, 'log')
            desk = self.desk(NEUTRAL, common.script(folder, 'slow', SLOW % (str(log), 0.3)))
            for _ in range(50):
                desk.do('edit', 'ea', 'black')
            wait_for(lambda: log.exists() and 'ended' in log.read_text())
            lines = [line.split() for line in log.read_text().splitlines()]
            begun = [line[1] for line in lines if line[0] == 'begun']
            self.assertLess(len(begun), 50)
            running = [pid for pid in begun if pathlib.Path('/proc', pid).exists()]
            self.assertLessEqual(len(running), 1)

    def test_work_is_stopped_and_begun_again(self):
        with tempfile.TemporaryDirectory() as folder:
            log = pathlib.Path(folder, 'log')
            desk = self.desk(NEUTRAL, common.script(folder, 'slow', SLOW % (str(log), 60)))
            wait_for(log.exists)
            self.assertEqual(desk.view()['working']['what'], 'board')
            desk.do('stop')
            self.assertEqual(self.settled(desk)['refusals'][0]['line'], 'stopped')
            pid = log.read_text().split()[1]
            wait_for(lambda: not pathlib.Path('/proc', pid).exists())
            desk.do('again')
            wait_for(lambda: log.read_text().count('begun') == 2)


class Games(AtDesk):
    def test_a_game_to_its_end_and_back(self):
        desk = self.desk(NEUTRAL)
        self.settled(desk)
        desk.do('begin_game', 'white')
        self.assertFalse(desk.view()['game']['thinking'])
        desk.do('play', 'spend')
        game = wait_for(lambda: self.awaited(desk))
        self.assertEqual(game['lines'][0], 'played spend')
        self.assertTrue(game['lines'][1].startswith('engine '))
        self.assertEqual(game['spent']['black'], 1)
        desk.do('take_back')
        self.assertEqual(wait_for(lambda: self.awaited(desk))['lines'], [])
        desk.do('end_game')
        self.assertIsNone(desk.view()['game'])

    def awaited(self, desk):
        """The game, where it is the user's turn and its board is drawn."""
        with desk.lock:
            game = desk.view()['game']
            return None if game['thinking'] or desk.table.owes_board() else game

    def test_what_is_no_move(self):
        desk = self.desk(NEUTRAL)
        self.settled(desk)
        with self.assertRaises(Fault):
            desk.do('play', 'spend')
        desk.do('begin_game', 'white')
        for move in ('zz', 'spend\nspend', '', None, 'ea ', 'quit'):
            with self.assertRaises(Fault):
                desk.do('play', move)

    def test_stones_are_played_and_refused(self):
        desk = self.desk(NEUTRAL)
        self.settled(desk)
        desk.do('begin_game', 'black')
        wait_for(lambda: desk.view()['game']['lines'] == ['engine ea'])
        self.assertEqual(wait_for(lambda: self.awaited(desk))['board']['rows'][0], '.X.XXOO.O.')
        desk.do('play', 'ea')
        self.assertEqual(wait_for(lambda: desk.view()['game']['refused']), 'a stone stands there')
        self.assertIn(';B[ea]', desk.sgf())

    def test_a_game_with_a_ko(self):
        desk = self.desk(PAIR, cycles=True)
        self.settled(desk)
        desk.do('begin_game', 'black')
        for typed in ('ea', 'spend', 'spend', 'spend'):
            wait_for(lambda: self.awaited(desk))
            desk.do('play', typed)
        wait_for(lambda: desk.view()['game']['over'])
        made = ['engine fa', 'played ea', 'engine fa', 'played spend', 'engine ea', *['played spend', 'engine spend'] * 2, 'winner black']
        self.assertEqual(desk.view()['game']['lines'], made)
        self.assertEqual(wait_for(lambda: self.awaited(desk))['board']['rows'][0], '.X.XXXO.O.')

    def test_editing_ends_the_game(self):
        desk = self.desk(NEUTRAL)
        self.settled(desk)
        desk.do('begin_game', 'white')
        process = desk.table.game.process
        desk.do('edit', 'ea', 'black')
        self.assertIsNone(desk.view()['game'])
        wait_for(lambda: process.poll() is not None)


if __name__ == '__main__':
    unittest.main()
