// Draws a board as SVG. What stands where, and what it means, comes from the server.

const CELL = 42;
const EDGE = 44; // from the first line to the edge of the picture
const COLUMNS = 'ABCDEFGHJKLMNOPQRSTUVWXYZ';
export const SHADES = 8;

export function pointName(column, row) {
  return String.fromCharCode(97 + column) + String.fromCharCode(97 + row);
}

export function place(point) {
  return [point.charCodeAt(0) - 97, point.charCodeAt(1) - 97];
}

export function isOn(point, { columns, rows }) {
  const [column, row] = place(point);
  return column < columns && row < rows.length;
}

/** A point as boards name it: a letter without I, and the row counted from the bottom. */
export function boardName(point, board) {
  const [column, row] = place(point);
  return COLUMNS[column] + (board.rows.length - row);
}

function shape(tag, attributes, ...children) {
  const element = document.createElementNS('http://www.w3.org/2000/svg', tag);
  for (const [name, value] of Object.entries(attributes)) {
    element.setAttribute(name, value);
  }
  element.append(...children);
  return element;
}

function at(point) {
  const [column, row] = place(point);
  return { x: EDGE + CELL * column, y: EDGE + CELL * row };
}

function label(x, y, text, style = '') {
  return shape('text', { x, y, class: style }, text);
}

function square(point, style, side = CELL) {
  const { x, y } = at(point);
  return shape('rect', { x: x - side / 2, y: y - side / 2, width: side, height: side, class: style });
}

/** The point under a pointer, or null. */
export function pointUnder(svg, event, board) {
  const matrix = svg.getScreenCTM();
  if (!matrix || !board) {
    return null;
  }
  const { x, y } = new DOMPoint(event.clientX, event.clientY).matrixTransform(matrix.inverse());
  const [column, row] = [Math.round((x - EDGE) / CELL), Math.round((y - EDGE) / CELL)];
  return column >= 0 && row >= 0 && column < board.columns && row < board.rows.length ? pointName(column, row) : null;
}

function lines(board) {
  const [columns, rows] = [board.columns, board.rows.length];
  const [right, bottom] = [EDGE + CELL * (columns - 1), EDGE + CELL * (rows - 1)];
  const drawn = [];
  for (let column = 0; column < columns; column++) {
    const x = EDGE + CELL * column;
    drawn.push(shape('line', { x1: x, y1: EDGE, x2: x, y2: bottom, class: 'grid' }));
    drawn.push(label(x, EDGE - 31, String.fromCharCode(97 + column)), label(x, bottom + 31, COLUMNS[column]));
  }
  for (let row = 0; row < rows; row++) {
    const y = EDGE + CELL * row;
    drawn.push(shape('line', { x1: EDGE, y1: y, x2: right, y2: y, class: 'grid' }));
    drawn.push(label(EDGE - 31, y, String.fromCharCode(97 + row)), label(right + 31, y, String(rows - row)));
  }
  return drawn;
}

/** Lines around the points of a region. */
function walls(points, board, style) {
  const inside = new Set(points);
  const half = CELL / 2;
  const drawn = [];
  for (const point of points) {
    const [column, row] = place(point);
    const { x, y } = at(point);
    const sides = [
      [column, row - 1, x - half, y - half, x + half, y - half], [column, row + 1, x - half, y + half, x + half, y + half],
      [column - 1, row, x - half, y - half, x - half, y + half], [column + 1, row, x + half, y - half, x + half, y + half],
    ];
    for (const [beside, below, x1, y1, x2, y2] of sides) {
      if (!inside.has(pointName(beside, below))) {
        drawn.push(shape('line', { x1, y1, x2, y2, class: style }));
      }
    }
  }
  return drawn;
}

function stones({ board, signs, dead, seals }) {
  const drawn = [];
  board.rows.forEach((text, row) => {
    [...text].forEach((stone, column) => {
      const point = pointName(column, row);
      const { x, y } = at(point);
      const sign = signs[point];
      if (stone !== '.') {
        const style = sign !== undefined && 'xo.'.includes(sign) ? ' open' : seals[point] ? ' seal' : '';
        drawn.push(shape('circle', { cx: x, cy: y, r: CELL * 0.46, class: (stone === 'X' ? 'black' : 'white') + style }));
      } else if (dead[point]) {
        drawn.push(shape('circle', { cx: x, cy: y, r: CELL * 0.4, class: dead[point] + ' dead' }));
      }
      if (sign !== undefined && 'bBwW'.includes(sign)) {
        drawn.push(square(point, 'counted answer ' + ('bB'.includes(sign) ? 'black' : 'white'), 11));
      }
    });
  });
  return drawn;
}

/** What a move is worth: best moves are dark circles, others that win pale circles, moves that lose or after which nobody wins pale squares. Below
 * stands what it loses, or, where kos leave a gap, above which komi White wins. */
function mark(move) {
  const { x, y } = at(move.move);
  const style = move.best ? 'best' : move.outcome;
  const ground = style === 'loses' || style === 'none'
    ? shape('rect', { x: x - 17, y: y - 15, width: 34, height: 30, rx: 4, class: style })
    : shape('circle', { cx: x, cy: y, r: 17, class: style });
  const below = move.white !== move.komi ? '>' + move.white : move.best || !move.loss ? '' : '\u2212' + move.loss;
  const texts = below ? [label(x, y - 5, move.komi, style), label(x, y + 8, below, style + ' small')] : [label(x, y, move.komi, style)];
  return shape('g', { class: 'answer' }, ground, ...texts);
}

/** The moves of a cycle or a line, numbered at their points; those that were made already stand out. */
function numbers({ moves, step }) {
  const found = new Map();
  moves.forEach((move, index) => {
    const list = found.get(move.point) || [];
    list.push(index + 1);
    found.set(move.point, list);
  });
  return [...found].map(([point, list]) => {
    const { x, y } = at(point);
    return label(x, y, list.join(' '), list[0] <= step ? 'number' : 'number later');
  });
}

/** Draws the whole picture: `scene` has the board, and what is to be drawn on it. */
export function draw(svg, scene) {
  const { board, marks, regions, moves, near, cursor, stepped, alarm, last } = scene;
  const [width, height] = [2 * EDGE + CELL * (board.columns - 1), 2 * EDGE + CELL * (board.rows.length - 1)];
  svg.setAttribute('viewBox', `0 0 ${width} ${height}`);
  svg.style.maxWidth = `${Math.max(280, width * 1.6)}px`;
  const drawn = [shape('rect', { x: 0, y: 0, width, height, rx: 8, class: 'wood' })];
  regions.forEach((region, number) => {
    drawn.push(...region.points.map((point) => square(point, `answer shade-${number % SHADES}`)));
  });
  drawn.push(...lines(board), ...stones(scene));
  drawn.push(...Object.entries(marks).map(([point, colour]) => square(point, `marked ${colour}`, 17)));
  regions.forEach((region) => {
    drawn.push(...walls(region.points, board, region.point === near ? 'wall near answer' : 'wall answer'));
  });
  drawn.push(...moves.map(mark));
  regions.forEach((region) => {
    const { x, y } = at(region.point);
    drawn.push(shape('g', { class: 'answer' }, label(x - 13, y - 18, region.point, 'region')));
  });
  drawn.push(...numbers(stepped));
  if (last) {
    const { x, y } = at(last);
    drawn.push(shape('circle', { cx: x, cy: y, r: 8, class: 'last' }));
  }
  if (alarm) {
    drawn.push(square(alarm, 'alarm', CELL * 1.1));
  }
  if (cursor) {
    drawn.push(square(cursor, 'cursor under', CELL * 0.84), square(cursor, 'cursor', CELL * 0.84));
  }
  svg.replaceChildren(...drawn);
}
