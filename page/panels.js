// The panels beside the board. All that a file or the program says is set as text.

import { SHADES } from './board.js';
import { both, moveName } from './words.js';

const REMEDIES = {
  fill_pairs: { action: 'fill_pairs' },
  close: { action: 'close_position' },
  positions: { action: 'configure', options: { positions: 1000000 }, text: 'Allow 1,000,000 positions' },
  parts: { action: 'configure', options: { parts: 4000 }, text: 'Allow 4,000 parts' },
  again: { action: 'again', text: 'Ask again' },
  cycles: { action: 'configure', options: { cycles: true }, text: 'Admit cycles' },
  territory: { action: 'configure', options: { territory: true }, text: 'Take the marked points as territory' },
};

export function make(tag, attributes = {}, ...children) {
  const element = document.createElement(tag);
  for (const [name, value] of Object.entries(attributes)) {
    if (name.startsWith('on')) {
      element.addEventListener(name.slice(2), value);
    } else if (value !== false && value !== null) {
      element.setAttribute(name, value === true ? '' : value);
    }
  }
  element.append(...children);
  return element;
}

function button(id, text, onclick, disabled = false) {
  return make('button', { id, type: 'button', onclick, disabled }, text);
}

/** Shows a panel with these children, or hides it where there are none. */
function fill(id, children) {
  const panel = document.getElementById(id);
  panel.hidden = children.length === 0;
  panel.replaceChildren(...children);
}

/** Brings an item of a panel's list of moves into sight. */
function bringUp(id, which) {
  const list = document.querySelector(`#${id} ol.moves`);
  const item = list && list.querySelector(which);
  if (item) {
    list.scrollTop = item.offsetTop - list.offsetTop - list.clientHeight / 2;
  }
}

/** A row of a table: a head and cells. */
function row(head, ...cells) {
  return make('tr', {}, make('th', { scope: 'row' }, head), ...cells.map((cell) => make('td', {}, cell)));
}

const OUTCOMES = { wins: 'wins', loses: 'loses', none: 'nobody wins' };

/** Up to which komi Black wins, and above which White does where that differs. */
function span(black, white) {
  return black === white ? `up to ${black}` : `up to ${black}, White above ${white}`;
}

export function answer(view) {
  if (!view.summary || view.game) {
    return fill('answer', []);
  }
  const moves = view.moves.moves.map((move) => make('tr', { class: move.best ? 'best' : '' },
    make('td', {}, both(move.move, view)), make('td', {}, OUTCOMES[move.outcome]),
    make('td', {}, move.komi === null ? '' : span(move.komi, move.white)),
    make('td', {}, move.best ? 'best' : move.loss ? `\u2212${move.loss}` : '')));
  const heads = ['move', 'for ' + view.moves.side, 'Black wins', 'loses'].map((text) => make('th', { scope: 'col' }, text));
  const none = moves.length === 0 ? [make('p', {}, 'No move is legal.')] : [];
  const withGap = view.moves.moves.some((move) => move.white !== move.komi);
  fill('answer', [
    make('h2', {}, 'Answer'),
    make('p', { class: 'winner' }, view.summary.split('.')[0] + '.'),
    make('table', {}, make('tbody', {},
      row('komi', view.margin.komi),
      row('Black first', `Black wins ${span(view.margin['black first'], view.margin['black first, white'])}`),
      row('White first', `Black wins ${span(view.margin['white first'], view.margin['white first, white'])}`))),
    ...none,
    make('div', { class: 'scroll', tabindex: 0, role: 'region', 'aria-label': 'Moves' },
      make('table', {}, make('thead', {}, make('tr', {}, ...heads)), make('tbody', {}, ...moves))),
    make('p', { class: 'faint' }, 'On the board: up to which komi Black wins after the move, and below, behind \u2212, what it loses against the best one'
      + (withGap ? '; or, behind >, above which komi White wins, where in between nobody does. ' : '. ')
      + 'A dark circle is a best move, a pale circle another that wins, a pale square one that loses or after which nobody wins.'),
  ]);
}

/** The list of regions, and what is told of the one that is pointed at. */
export function detail(view, near, choose) {
  const regions = view.safe ? view.safe.regions : [];
  if (regions.length === 0) {
    return fill('detail', view.safe && !view.game ? [make('h2', {}, 'Regions'), make('p', {}, 'Nothing is open to play.')] : []);
  }
  const buttons = regions.map((region, number) => {
    const chosen = region.point === near;
    const swatch = make('span', { class: `swatch shade-${number % SHADES}`, 'aria-hidden': 'true' });
    return make('button', { id: `region-${region.point}`, type: 'button', 'aria-pressed': String(chosen), onclick: () => choose(region.point) },
      swatch, region.point);
  });
  const chosen = regions.find((region) => region.point === near);
  const children = [make('h2', {}, 'Regions'), make('div', { class: 'buttons' }, ...buttons)];
  fill('detail', chosen ? [...children, ...region(view, chosen)] : [...children, make('p', { class: 'faint' }, 'Point at a region to see what it is worth.')]);
}

function region(view, chosen) {
  const value = view.values && view.values.find((told) => told.point === chosen.point);
  const head = make('p', {}, `Region ${both(chosen.point, view)}, ${chosen.points.length} point${chosen.points.length > 1 ? 's' : ''}`);
  if (!value) {
    return [head];
  }
  const told = value.values.map((game) => `${game.value}: left wall ${game.left}, right wall ${game.right}`).join('; ');
  const named = value.values.map((game) => game.value).join(' ');
  const picture = make('img', { src: `thermograph.svg?point=${chosen.point}&of=${encodeURIComponent(named)}`, alt: `Thermograph of ${told}` });
  return [head, make('table', {}, make('tbody', {}, ...value.values.flatMap(valueRows), row('positions', String(value.positions)))), picture];
}

/** What is told of a value; `low` is Black's and `high` White's, where kos make them differ. */
function valueRows(game) {
  const [left, right] = game.stops.split(' ');
  const label = { low: 'value for Black', high: 'value for White' }[game.label] || 'value';
  return [
    row(label, game.value), row('stops', `${left} where Black begins, ${right} where White begins`), row('mean', game.mean),
    row('temperature', game.temperature),
  ];
}

export function refusals(view, step, act, stepTo) {
  const children = view.refusals.flatMap((refusal, number) => refusalOf(view, refusal, number, step, act, stepTo));
  fill('refusals', children);
  bringUp('refusals', 'li.now');
}

function refusalOf(view, refusal, number, step, act, stepTo) {
  const where = refusal.at ? ` Region ${both(refusal.at, view)}.` : '';
  const place = refusal.line.includes('no liberty') ? ` At ${both(refusal.at, view)}.` : where;
  const children = [
    make('h2', {}, `Refused by ${refusal.command}`), make('p', { class: 'line' }, refusal.line),
    make('p', {}, refusal.means + place), make('p', {}, 'Next: ' + refusal.advice),
  ];
  if (refusal.moves.length > 0 && view.steps.length > 1) {
    children.push(...cycle(view, refusal, step, stepTo));
  }
  const buttons = refusal.remedies.flatMap((name) => remedy(view, name, number, act));
  return [...children, make('div', { class: 'buttons' }, ...buttons)];
}

function remedy(view, name, number, act) {
  const { text, ...action } = REMEDIES[name];
  const id = `remedy-${name}-${number}`;
  if (name === 'territory' && (!view.marked || view.options.territory)) {
    return [];
  }
  if (name === 'fill_pairs') {
    return view.pair ? [button(id, `Fill ${view.pair[0]} by Black and ${view.pair[1]} by White`, () => act(action))] : [];
  }
  if (name === 'close') {
    return view.closing ? [button(id, `Close the position, judged by ${view.closing}`, () => act(action))] :
      [make('span', { class: 'faint' }, 'No button closes this position: its file marks no territory, and GNU Go, where it is installed, judges square boards up to 19 by 19 alone.')];
  }
  return [button(id, text, () => act(action))];
}

function cycle(view, refusal, step, stepTo) {
  const back = step === refusal.returns || step === refusal.moves.length ? ' This position comes back.' : '';
  return steps(view, refusal.moves, step, stepTo, `After move ${step} of ${refusal.moves.length}.${back}`);
}

/** Moves that are stepped through. */
function steps(view, moves, step, stepTo, told) {
  const last = view.steps.length - 1;
  const items = moves.map((move, index) => make('li', { class: index + 1 === step ? 'now' : '' }, `${move.colour} ${both(move.point, view)}`));
  return [
    make('ol', { class: 'moves', tabindex: 0, 'aria-label': 'Moves' }, ...items),
    make('div', { class: 'buttons' },
      button('step-first', 'Start', () => stepTo(0), step === 0),
      button('step-back', 'Back', () => stepTo(step - 1), step === 0),
      button('step-next', 'Next move', () => stepTo(step + 1), step >= last),
      button('step-last', 'End', () => stepTo(last), step >= last)),
    make('p', { id: 'step-told' }, told),
  ];
}

/** The line of play, where the position is answered. */
export function line(view, step, stepTo) {
  if (view.game || view.refusals.length > 0 || !view.line) {
    return fill('play', []);
  }
  const { moves, threshold } = view.line;
  const head = make('h2', {}, 'Line of play');
  if (moves.length === 0) {
    return fill('play', [head, make('p', {}, 'No region is hot: none has a first move that gains.')]);
  }
  const told = `After stone ${step} of ${moves.length}. Black wins up to komi ${threshold}, and no stone of the line changes that.`;
  fill('play', [head, make('p', {}, 'Each stone is a best one, while some region is hot.'), ...steps(view, moves, step, stepTo, told)]);
  bringUp('play', 'li.now');
}

export function game(view, act) {
  if (!view.game) {
    const ready = view.moves && view.refusals.length === 0;
    return fill('game', ready ? [
      make('h2', {}, 'Game'), make('p', {}, 'Play this position against the program, as'),
      make('div', { class: 'buttons' },
        button('play-black', 'Black', () => act({ action: 'begin_game', engine: 'white' })),
        button('play-white', 'White', () => act({ action: 'begin_game', engine: 'black' }))),
      ...(view.options.cycles ? [make('p', { class: 'faint' },
        'There is no ko rule: a stone may be taken back at once. A game that the program wins ends; where nobody wins it may go round.')] : []),
    ] : []);
  }
  const { winner, over, thinking, moves, user, spent, refused, fault } = view.game;
  const ended = winner !== null || over;
  const turn = winner ? `${winner === 'black' ? 'Black' : 'White'} wins.` : over ? `The game ended. ${fault}` : thinking ? 'The program is thinking.' : `Your move, as ${user}.`;
  const waits = ended || thinking;
  fill('game', [
    make('h2', {}, 'Game'), make('p', { id: 'turn-told', class: 'winner' }, turn),
    ...(refused ? [make('p', {}, `Refused: ${refused}.`)] : []),
    make('div', { class: 'buttons' },
      button('spend', 'Give back a point', () => act({ action: 'play', move: 'spend' }), waits),
      button('half', 'Take the half', () => act({ action: 'play', move: 'half' }), waits),
      button('take-back', 'Take back', () => act({ action: 'take_back' }), !moves.some((move) => move.colour === user)),
      button('end-game', 'End the game', () => act({ action: 'end_game' }))),
    make('p', { class: 'faint' }, `A click on the board plays there. Points given back: black ${spent.black}, white ${spent.white}.`),
    make('ol', { class: 'moves', id: 'game-lines', tabindex: 0, 'aria-label': 'Moves of the game' }, ...moves.map(({ number, colour, move }) =>
      make('li', { value: number }, `${colour} ${moveName(move, view)}, ${colour === user ? 'you' : 'the program'}`))),
  ]);
  bringUp('game', 'li:last-child');
}
