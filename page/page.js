// The page: asks the server for what is to be shown, draws it, and sends what the user does.

import { draw, isOn, place, pointName, pointUnder } from './board.js';
import * as panels from './panels.js';
import { described, summary, toolTold } from './words.js';

const BUSY_PAUSE = 250; // milliseconds between two questions to the server while it works
const PAUSE = 1500;
const MOST_FAILURES = 4;
const OPTIONS = ['black_prisoners', 'white_prisoners', 'positions', 'parts'];
const SWITCHES = ['tax', 'territory', 'cycles'];

const byId = (id) => document.getElementById(id);
const board = byId('board');
const state = { view: null, near: null, cursor: 'aa', here: null, step: 0, failures: 0, stepsOf: '' };

// Talking with the server

async function receive(answer) {
  const data = await answer.json();
  if (data.fault) {
    throw new Error(data.fault);
  }
  return data;
}

/** Sends what the user does; the newest view that comes is shown. */
async function send(path, body) {
  byId('fault').textContent = '';
  try {
    show(await receive(await fetch(path, { method: 'POST', body })));
  } catch (error) {
    byId('fault').textContent = error.message;
    if (state.view) {
      showSwitches(state.view); // a switch that was refused goes back
    }
  }
}

function act(action) {
  return send('do', JSON.stringify(action));
}

async function ask() {
  try {
    const seen = state.view ? `?seen=${state.view.change}` : '';
    const view = await receive(await fetch(`view${seen}`));
    state.failures = 0;
    if (view.same) {
      showWork(view.working);
    } else {
      show(view);
    }
    setTimeout(ask, view.working || (state.view.game && state.view.game.thinking) ? BUSY_PAUSE : PAUSE);
  } catch (error) {
    state.failures += 1;
    if (state.failures < MOST_FAILURES) {
      setTimeout(ask, PAUSE);
    } else {
      byId('work').textContent = '';
      byId('fault').textContent = 'The server has ended. Begin gdsolve-board again.';
    }
  }
}

async function open(file) {
  if (file && file.size > 1048576) {
    byId('fault').textContent = 'A file has at most 1,048,576 bytes.';
  } else if (file) {
    await send(`open?name=${encodeURIComponent(file.name.slice(0, 80))}`, await file.arrayBuffer());
  }
}

// Showing

function show(view) {
  if (state.view && view.change < state.view.change) {
    return;
  }
  state.view = view;
  forgetWhatHasGone(view);
  showWork(view.working);
  showFile(view);
  keepFocus(() => {
    panels.answer(view);
    panels.refusals(view, state.step, act, stepTo);
    panels.line(view, state.step, stepTo);
    panels.game(view, act);
    panels.detail(view, state.near, choose);
  });
  showBoard();
  showText(view);
  showHere(state.here);
  const told = summary(view, byId('turn-told'));
  if (byId('said').textContent !== told) {
    byId('said').textContent = told;
  }
}

/** Draws panels anew; the focus stays, or goes to the board where what had it is gone. */
function keepFocus(render) {
  const focused = document.activeElement === document.body ? null : document.activeElement;
  render();
  if (focused && !document.contains(focused)) {
    const again = focused.id && byId(focused.id);
    (again && !again.disabled ? again : board).focus({ preventScroll: true });
  }
}

function forgetWhatHasGone(view) {
  const told = JSON.stringify([view.refusals.map((refusal) => refusal.line), view.line, view.board && view.board.rows]);
  if (told !== state.stepsOf) {
    state.stepsOf = told;
    state.step = 0;
  }
  const regions = view.safe ? view.safe.regions : [];
  const refused = view.refusals.find((refusal) => refusal.at);
  if (view.safe && !regions.some((region) => region.point === state.near)) {
    state.near = null;
  }
  if (!state.near && refused && regions.some((region) => region.point === refused.at)) {
    state.near = refused.at;
  }
  if (view.board && !isOn(state.cursor, view.board)) {
    state.cursor = 'aa';
  }
}

function showWork(working) {
  const thinking = state.view && state.view.game && state.view.game.thinking;
  const what = working ? `${working.what}: ${working.seconds} s` : thinking ? 'the program is thinking' : '';
  byId('work').textContent = what && `at work on ${what}`.replace('at work on the', 'the');
  byId('stop').hidden = !what;
}

function showSwitches(view) {
  SWITCHES.forEach((name) => { byId(name).checked = view.options[name]; });
}

function showFile(view) {
  byId('name').textContent = view.name;
  byId('undo').disabled = view.undo === 0 && !view.game;
  byId('redo').disabled = view.redo === 0 || Boolean(view.game);
  const line = view.record;
  byId('line').hidden = line.total === 0;
  set('after', line.played);
  byId('total').textContent = line.total;
  byId('first').disabled = byId('back').disabled = line.played === 0;
  byId('last').disabled = byId('next').disabled = line.played >= line.total;
  set('komi', view.options.komi ?? (view.board ? view.board.komi : ''));
  set('turn', view.options.turn ?? '');
  OPTIONS.forEach((name) => set(name, view.options[name]));
  showSwitches(view);
  byId('named').hidden = view.files.length < 2;
  if (byId('names').options.length !== view.files.length) {
    byId('names').replaceChildren(...view.files.map((name) => panels.make('option', {}, name)));
    byId('names').value = view.name;
  }
  const now = shownBoard();
  byId('facts').textContent = now ? `${now.side} to move, komi ${now.komi}, prisoners: black ${now.prisoners.black}, white ${now.prisoners.white}.`
    + (now.unread ? ' The program refuses this board.' : '') : view.reading ? 'The program reads the position.' : 'There is no board that the program reads.';
  if (view.note) {
    byId('facts').textContent += ` ${view.note}`;
  }
}

/** Sets a field that the user isn't at. */
function set(id, value) {
  if (document.activeElement !== byId(id)) {
    byId(id).value = value;
  }
}

/** The board that is drawn: that of the game, of a step of a cycle or a line, or of the position. */
function shownBoard() {
  const { view, step } = state;
  if (view.game) {
    return view.game.board || view.board;
  }
  return (step > 0 && view.steps[step]) || view.board;
}

function cycleOf(view) {
  return view.game ? null : view.refusals.find((refusal) => refusal.moves.length > 0);
}

function showBoard() {
  const { view } = state;
  const now = shownBoard();
  if (!now && view.reading) {
    return; // the last picture stays, and with it the focus
  }
  board.toggleAttribute('hidden', !now);
  if (!now) {
    return;
  }
  const cycle = cycleOf(view);
  const made = !view.game && !cycle && view.line ? view.line.moves.slice(0, state.step) : [];
  const stepped = cycle ? cycle.moves : made;
  const stopped = view.refusals.find((refusal) => refusal.line.includes('no liberty'));
  const withRegions = byId('show-regions').checked && view.safe;
  draw(board, {
    board: now,
    signs: view.safe ? view.safe.signs : {},
    marks: state.step === 0 && !view.game ? view.marks : {},
    dead: now === view.board ? view.dead : {},
    seals: now === view.board ? view.seals : {},
    regions: withRegions ? view.safe.regions : [],
    moves: !view.game && view.moves && state.step === 0 && byId('show-moves').checked ? view.moves.moves.filter((move) => move.komi !== null) : [],
    near: state.near,
    cursor: state.cursor,
    stepped: { moves: stepped, step: state.step },
    alarm: stopped ? stopped.at : null,
    last: view.game ? view.game.last : null,
  });
}

function showText(view) {
  const now = shownBoard();
  const drawing = view.safe && now === view.board ? view.safe.drawing : now ? now.rows.map((row) => [...row].join(' ')) : [];
  byId('drawing').textContent = drawing.join('\n');
  byId('legend').textContent = view.safe ? Object.entries(view.signs).map(([sign, meaning]) => `${sign} ${meaning}`).join('; ') + '.' : '';
}

/** Says a text to who listens. */
function tell(text) {
  byId('heard').textContent = text;
}

/** Tells what stands at the point that is pointed at. */
function showHere(point) {
  const now = shownBoard();
  state.here = point && now && isOn(point, now) ? point : null;
  byId('here').textContent = state.here ? described(point, state.view, now) : '\u00a0';
}

// What the user does

function choose(region) {
  if (state.near !== region) {
    state.near = region;
    keepFocus(() => panels.detail(state.view, region, choose));
    showBoard();
  }
}

function stepTo(step) {
  state.step = Math.max(0, Math.min(step, state.view.steps.length - 1));
  keepFocus(() => {
    panels.refusals(state.view, state.step, act, stepTo);
    panels.line(state.view, state.step, stepTo);
  });
  showBoard();
  showText(state.view);
  showHere(state.here);
  tell(byId('step-told').textContent);
}

function goTo(point) {
  if (!shownBoard()) {
    return;
  }
  state.cursor = point;
  const region = state.view.safe && state.view.safe.regions.find((told) => told.points.includes(point));
  if (region) {
    choose(region.point);
  }
  showBoard();
  showHere(point);
  tell(byId('here').textContent);
}

function strike(point) {
  const { view } = state;
  if (view.game) {
    return act({ action: 'play', move: point });
  }
  if (state.step > 0) {
    byId('fault').textContent = 'A later step is shown: go to the start to set stones.';
    return null;
  }
  const chosen = document.querySelector('input[name=tool]:checked').value || null;
  const colour = chosen && chosen.replace('mark-', '');
  return act({ action: colour === chosen ? 'edit' : 'mark', point, colour });
}

/** Sets a stone at the cursor, and says what then stands there. */
async function strikeByKey() {
  await strike(state.cursor);
  showHere(state.cursor);
  if (!state.view.game) {
    tell(byId('here').textContent);
  }
}

function undo() {
  return act({ action: state.view.game ? 'take_back' : 'undo' });
}

function redo() {
  return !state.view.game && state.view.redo > 0 && act({ action: 'redo' });
}

function after(count) {
  const { played, total } = state.view.record;
  if (Number.isNaN(count)) {
    byId('after').value = played;
    return null;
  }
  return act({ action: 'configure', options: { after: Math.max(0, Math.min(count, total)) } });
}

const KEYS = {
  Enter: strikeByKey, ' ': strikeByKey, u: undo, r: redo,
  '[': () => after(state.view.record.played - 1), ']': () => after(state.view.record.played + 1), Escape: () => act({ action: 'stop' }),
  Home: () => goTo('aa'), s: () => state.view.game && act({ action: 'play', move: 'spend' }),
  b: () => pick('black'), w: () => pick('white'), x: () => pick(''), m: () => pick('mark-black'), n: () => pick('mark-white'),
};
const ARROWS = { ArrowLeft: [-1, 0], ArrowRight: [1, 0], ArrowUp: [0, -1], ArrowDown: [0, 1] };

function pick(value) {
  document.querySelector(`input[name=tool][value="${value}"]`).checked = true;
  tell(toolTold(value));
}

function pressed(event) {
  const now = state.view && shownBoard();
  if (!state.view || event.ctrlKey || event.metaKey || event.altKey) {
    return;
  }
  const arrow = ARROWS[event.key];
  if (arrow) {
    const [column, row] = place(state.cursor);
    const point = pointName(column + arrow[0], row + arrow[1]);
    if (now && column + arrow[0] >= 0 && row + arrow[1] >= 0 && isOn(point, now)) {
      goTo(point);
    }
  } else if (KEYS[event.key]) {
    KEYS[event.key]();
  } else {
    return;
  }
  event.preventDefault();
}

function listen() {
  const on = (id, event, does) => byId(id).addEventListener(event, does);
  const number = (id) => Number.parseInt(byId(id).value, 10);
  const configure = (options) => act({ action: 'configure', options });
  board.addEventListener('keydown', pressed);
  board.addEventListener('click', (event) => {
    const point = state.view && pointUnder(board, event, shownBoard());
    if (point) {
      state.cursor = point;
      strike(point);
    }
  });
  board.addEventListener('pointermove', (event) => {
    const point = state.view && pointUnder(board, event, shownBoard());
    if (point && point !== state.here) {
      showHere(point);
      const region = state.view.safe && state.view.safe.regions.find((told) => told.points.includes(point));
      if (region) {
        choose(region.point);
      }
    }
  });
  on('undo', 'click', undo);
  on('redo', 'click', redo);
  on('stop', 'click', () => act({ action: 'stop' }));
  on('first', 'click', () => after(0));
  on('back', 'click', () => after(state.view.record.played - 1));
  on('next', 'click', () => after(state.view.record.played + 1));
  on('last', 'click', () => after(state.view.record.total));
  on('after', 'change', () => after(number('after')));
  on('show-moves', 'change', showBoard);
  on('show-regions', 'change', showBoard);
  on('settings', 'submit', (event) => event.preventDefault());
  on('komi', 'change', () => configure({ komi: byId('komi').value.trim() || null }));
  on('turn', 'change', () => configure({ turn: byId('turn').value || null }));
  SWITCHES.forEach((name) => on(name, 'change', () => configure({ [name]: byId(name).checked })));
  OPTIONS.forEach((name) => on(name, 'change', () => configure({ [name]: number(name) })));
  on('file', 'change', async () => {
    await open(byId('file').files[0]);
    byId('file').value = ''; // so that the same file can be opened again
  });
  on('choose', 'click', () => act({ action: 'choose', name: byId('names').value }));
  on('new', 'click', () => act({ action: 'new', columns: number('columns'), rows: number('rows') }));
  document.addEventListener('dragover', (event) => {
    event.preventDefault();
    document.body.classList.add('dropping');
  });
  document.addEventListener('dragleave', () => document.body.classList.remove('dropping'));
  document.addEventListener('drop', (event) => {
    event.preventDefault();
    document.body.classList.remove('dropping');
    open(event.dataTransfer.files[0]);
  });
  window.addEventListener('pagehide', () => fetch('leave', { method: 'POST', keepalive: true }));
}

listen();
ask();
