// What the picture shows, in words.

import { boardName, place } from './board.js';

/** What stands at a point of the board that is drawn, and what a move there is worth. */
export function described(point, view, now) {
  const [column, row] = place(point);
  const stone = { X: 'black stone', O: 'white stone', '.': 'empty' }[now.rows[row][column]];
  const sign = view.safe && now === view.board ? view.signs[view.safe.signs[point]] : stone;
  const region = view.safe && view.safe.regions.find((told) => told.points.includes(point));
  const move = !view.game && now === view.board && view.moves && view.moves.moves.find((told) => told.move === point);
  const loss = move && (move.best ? ', best' : move.loss ? `, ${move.loss} less than the best` : '');
  const outcome = move && { wins: 'wins', loses: 'loses', none: 'lets nobody win' }[move.outcome];
  const above = move && move.white !== move.komi ? `, White above ${move.white}` : '';
  const worth = move ? `; a move here ${outcome}, Black wins up to komi ${move.komi}${above}${loss}` : '';
  const owner = !view.game && now === view.board && { black: 'Black', white: 'White' }[view.marks[point]];
  const mark = owner ? `; marked as ${owner}'s territory` : '';
  const dead = now === view.board && view.dead[point] ? `, a dead ${view.dead[point]} stone` : '';
  const seal = now === view.board && view.seals[point] ? ', set to seal what is marked' : '';
  return `${point}, ${boardName(point, now)}: ${sign}${dead}${seal}${mark}${region ? `; region ${region.point}` : ''}${worth}`;
}

/** What a click does, by the value of its button. */
export function toolTold(value) {
  const owner = { 'mark-black': 'Black', 'mark-white': 'White' }[value];
  return owner ? `A click marks ${owner}'s territory.` : `A click sets ${value || 'nothing'}.`;
}

/** A move of a game: a point both ways, or what is done without a stone. */
export function moveName(move, view) {
  return { spend: 'gives back a point', half: 'takes the half' }[move] || both(move, view);
}

export function both(point, view) {
  return view.board && /^[a-y]{2}$/.test(point) ? `${point} (${boardName(point, view.board)})` : point;
}

/** The answer, why there is none, or how the game stands. */
export function summary(view, turn) {
  if (view.game) {
    const { moves, refused } = view.game;
    const last = moves.at(-1);
    const told = refused ? `Refused: ${refused}` : last ? `${last.colour} ${moveName(last.move, view)}` : 'The game begins';
    return `${told}. ${turn.textContent}`;
  }
  if (view.refusals.length > 0) {
    return view.refusals.map((refusal) => `Refused: ${refusal.line}. ${refusal.means}`).join(' ');
  }
  return view.summary || '';
}
