"""The program's lines as data."""

import unittest

import common
import answers
import refusals
from position import Position, configured, edited, empty, marked, settled, written
from record import Setup, setup_of
from script import Fault


class Answers(unittest.TestCase):
    def test_what_a_move_loses_is_counted_for_the_side_to_move(self):
        for side, losses, outcomes in (('black', ['0', '3'], ('wins', 'loses')), ('white', ['3', '0'], ('loses', 'wins'))):
            lines = ['side ' + side, 'komi 0', 'winner ' + side, 'stone aa %s 2' % outcomes[0], 'stone bb %s -1' % outcomes[1], 'spend wins']
            moves = answers.moves_of(lines)['moves']
            self.assertEqual([move.get('loss') for move in moves], [*losses, None])
            self.assertEqual([move.get('best') for move in moves], [losses[0] == '0', losses[1] == '0', None])

    def test_thresholds_past_a_file_s_komi(self):
        lines = ['side black', 'komi 0', 'winner black', 'stone aa wins 1000000.5', 'stone bb loses -1000001']
        self.assertEqual([move['loss'] for move in answers.moves_of(lines)['moves']], ['0', '2000001.5'])

    def test_two_thresholds_where_kos_arise(self):
        lines = ['side white', 'komi 0', 'winner none', 'stone aa wins -1 2', 'stone bb none -4 5', 'half loses']
        moves = answers.moves_of(lines)['moves']
        self.assertEqual([(move['outcome'], move['komi'], move['white'], move.get('loss')) for move in moves],
                         [('wins', '-1', '2', '0'), ('none', '-4', '5', '3'), ('loses', None, None, None)])
        margin = answers.margin_of(lines[:3] + ['black first -0.5 1', 'white first 0 0'])
        told = answers.summary({'komi': '0'}, answers.moves_of(lines), margin)
        self.assertEqual(told, 'White to move; nobody wins. Winning: aa. Black wins up to komi -0.5, White above 1, moving first, and up to 0 '
                         'where White moves first; the komi is 0.')

    def test_a_move_that_loses_is_not_the_best_one(self):
        lines = ['side black', 'komi 0', 'winner none', 'stone ea loses -0.5 -0.5', 'stone fa none -2.5 1', 'stone ga loses -3 -3']
        moves = answers.moves_of(lines)['moves']
        self.assertEqual([(move['best'], move['loss']) for move in moves], [(False, None), (True, '0'), (False, '0.5')])

    def test_a_region_with_two_values(self):
        six = '%s {1|*}\nstops 1 0\nmean 1/2\ntemperature 1/2\nleft 0:1 1/2:1/2\nright 0:0 1/2:1/2\n'
        lines = ('regions 1\nregion eb points 2 positions 8\n' + six % 'low' + six % 'high').splitlines()
        self.assertEqual([value['label'] for value in answers.values_of(lines)[0]['values']], ['low', 'high'])
        self.assertIn('high: White', answers.thermograph(lines, 'eb'))

    def test_no_stone_is_legal(self):
        self.assertEqual(answers.moves_of(['side black', 'komi 0', 'winner white'])['moves'], [])

    def test_board(self):
        lines = ['size 3 2', 'side white', 'komi -1.5', 'prisoners black 2', 'prisoners white 0', 'row X.O', 'row ...']
        setup = Setup(lines)
        data, board = answers.board_of(setup), setup.board
        self.assertEqual((data['columns'], data['rows'], data['side'], data['komi']), (3, ['X.O', '...'], 'white', '-1.5'))
        self.assertEqual(data['prisoners'], {'black': 2, 'white': 0})
        self.assertEqual(board.stones, {(0, 0): 'black', (2, 0): 'white'})

    def test_line(self):
        lines = ['side white', 'komi 1.5', 'winner white', 'threshold -0.5', 'line 2 white:gb black:fb']
        moves = [{'colour': 'white', 'point': 'gb'}, {'colour': 'black', 'point': 'fb'}]
        self.assertEqual(answers.line_of(lines), {'threshold': '-0.5', 'moves': moves})
        self.assertEqual(answers.line_of(lines[:4] + ['line 0'])['moves'], [])

    def test_cycle(self):
        refusal = refusals.explained('moves', 'fault cycle ea 1 black:fa white:ea')
        self.assertEqual((refusal['at'], refusal['returns']), ('ea', 1))
        self.assertEqual(refusal['moves'], [{'colour': 'black', 'point': 'fa'}, {'colour': 'white', 'point': 'ea'}])

    def test_each_refusal_has_its_own_words(self):
        means = {refusals.explained('moves', line)['means'] for line in (
            'fault cycle aa 0 black:aa', 'fault region aa points 81', 'fault region aa positions over 100', 'fault form aa',
            'fault file no liberty at aa', 'fault file bad komi', 'fault file bad byte 3', 'fault too long', 'memory was refused',
            'stopped', 'stopped after 3 seconds', 'what is this')}
        self.assertEqual(len(means), 12)

    def test_a_thermograph_of_a_region_that_isn_t_there(self):
        with self.assertRaises(Fault):
            answers.thermograph(['regions 0'], '../x')


class Positions(unittest.TestCase):
    def test_a_stone_is_set_and_taken_off(self):
        position = empty(5, 4)
        for colour, wanted in (('black', {(1, 0): 'black'}), ('white', {(1, 0): 'white'}), ('white', {})):
            position = edited(position, setup_of(position.text), 'ba', colour)
            self.assertEqual((setup_of(position.text).board.stones, position.setup.board.stones), (wanted, wanted))

    def test_points_off_the_board_and_odd_colours(self):
        for name, colour in (('fa', 'black'), ('ae', 'black'), ('a', 'black'), (None, 'black'), ('aa', 'red')):
            with self.assertRaises(Fault):
                edited(empty(5, 4), setup_of(empty(5, 4).text), name, colour)

    def test_settled_keeps_side_komi_and_prisoners(self):
        text = b'(;SZ[3]KM[0.5]AB[ba]AW[aa];B[bb];W[cc])'
        taken = b'(;SZ[3]KM[0.5]AB[ba]AW[aa];B[ab])'
        first = Position(text, 'x', 1)
        self.assertEqual(setup_of(settled(first, self.setup(first)).text).side, 'white')
        second = Position(taken, 'x', komi='3', black_prisoners=2)
        alone = settled(second, self.setup(second))
        self.assertEqual((alone.black_prisoners, alone.white_prisoners), (3, 0))
        self.assertEqual(self.setup(alone).komi, '3')
        self.assertEqual(setup_of(written(second, setup_of(taken)).encode()).komi, '-0.5')

    def setup(self, position):
        return setup_of(position.text, position.options('board'))

    def test_marks_are_set_and_taken_off(self):
        setup = Setup(['size 4 2', 'side black', 'komi 0', 'prisoners black 0', 'prisoners white 0', 'row ..X.', 'row .OXO'])
        position = marked(empty(4, 2), setup, 'aa', 'black')
        self.assertEqual([point for point, _ in position.marks], [(0, 0), (1, 0), (0, 1)])
        self.assertIn(b'TB[aa][ba][ab]', position.text)
        position = marked(position, setup, 'bb', 'black')  # a dead stone
        position = marked(position, setup, 'ba', 'black')
        self.assertEqual(dict(position.marks).keys(), {(0, 0), (0, 1), (1, 1)})
        self.assertEqual(position.options('safe'), ['--territory', 'yes'])
        position = edited(position, setup, 'aa', None)
        self.assertEqual(dict(position.marks).keys(), {(0, 1), (1, 1)})
        for point, colour in (('ca', 'black'), ('aa', 'red'), ('ea', 'black')):
            with self.assertRaises(Fault):
                marked(position, setup, point, colour)
        with self.assertRaises(Fault):
            configured(position, {'tax': True})

    def test_options_are_checked(self):
        for given in ({'komi': '6.25'}, {'komi': 6}, {'turn': 'red'}, {'positions': 0}, {'parts': 4001}, {'after': -1}, {'black_prisoners': True},
                      {'black_prisoners': '2'}, {'text': 'x'}):
            with self.assertRaises(Fault):
                configured(empty(9, 9), given)

    def test_options_as_words(self):
        position = configured(empty(9, 9), {'komi': '6.5', 'turn': 'white', 'tax': True, 'after': 3, 'white_prisoners': 4})
        words = ['--after', '3', '--komi', '6.5', '--turn', 'white', '--white-prisoners', '4']
        self.assertEqual(position.options('safe'), words)
        self.assertEqual(position.options('moves'), words + ['--tax', 'yes', '--positions', '100000', '--parts', '500'])
        admitted = configured(empty(9, 9), {'cycles': True, 'territory': True})
        self.assertEqual(admitted.options('board'), ['--territory', 'yes'])
        self.assertEqual(admitted.options('margin')[-4:], ['--cycles', 'yes', '--territory', 'yes'])
        self.assertEqual(admitted.options('play')[-4:], ['--cycles', 'yes', '--territory', 'yes'])
        self.assertNotIn('--cycles', admitted.options('line'))


if __name__ == '__main__':
    unittest.main()
