// A memory as a grid of pages on a canvas: squares of 4 by 4 pages are sectors. A page can be chosen with the mouse or the arrow keys.
import { STATUS_NAMES } from '../pages.js';
import { text } from '../text.js';

const SIDE = 4;
const PER_SECTOR = SIDE * SIDE;
const MOST_CELL = 44;
const PLAIN_CELL = 5;
const MOST_HEIGHT = 420;

// Colours that the colour-blind can tell apart (after Okabe and Ito); each status has a mark besides.
export const COLOURS = {
  lent: { fill: '#d4d4d4', ink: '#333333' },
  erased: { fill: '#ffffff', ink: '#777777' },
  stored: { fill: '#0072b2', ink: '#ffffff' },
  kept: { fill: '#7fd6b8', ink: '#00382a' },
  left: { fill: '#e3b3cd', ink: '#4a1030' },
  waiting: { fill: '#ffffff', ink: '#0072b2' },
  missing: { fill: '#b23c00', ink: '#ffffff' },
};

// The borders of sectors: of none, and of partition 0, 1, .. in turn.
const BORDERS = ['#222222', '#d55e00', '#56b4e9', '#009e73', '#cc79a7', '#e69f00', '#0072b2'];

export function borderOf(partition) {
  return partition < 0 ? BORDERS[0] : BORDERS[1 + (partition % (BORDERS.length - 1))];
}

function gapOf(cell) {
  return cell >= 14 ? 6 : cell >= 5 ? 3 : 1;
}

// How many sectors stand side by side, and how large a page is drawn, so that all pages fit.
export function layoutOf(pages, width, mostHeight = MOST_HEIGHT) {
  const sectors = Math.max(1, Math.ceil(pages / PER_SECTOR));
  for (let across = 1; ; across++) {
    const rough = Math.min(MOST_CELL, Math.floor((width - across) / (SIDE * across)));
    const cell = Math.max(1, Math.min(MOST_CELL, Math.floor((width - gapOf(rough) * (across + 1)) / (SIDE * across))));
    const gap = gapOf(cell);
    const down = Math.ceil(sectors / across);
    const height = down * (SIDE * cell + gap) + gap;
    const isWidest = (across + 1) * (SIDE + 1) + 1 > width;
    if (height <= mostHeight || isWidest || across === sectors) {
      return { cell, gap, across, down, width: across * (SIDE * cell + gap) + gap, height };
    }
  }
}

export function cellAt(layout, page) {
  const sector = Math.floor(page / PER_SECTOR);
  const within = page % PER_SECTOR;
  const step = SIDE * layout.cell + layout.gap;
  return {
    x: layout.gap + (sector % layout.across) * step + (within % SIDE) * layout.cell,
    y: layout.gap + Math.floor(sector / layout.across) * step + Math.floor(within / SIDE) * layout.cell,
  };
}

export function pageAt(layout, x, y, pages) {
  const step = SIDE * layout.cell + layout.gap;
  const [i, j] = [x, y].map((at) => Math.floor((at - layout.gap) / step));
  const [u, v] = [x - layout.gap - i * step, y - layout.gap - j * step].map((at) => Math.floor(at / layout.cell));
  if (i < 0 || j < 0 || i >= layout.across || u < 0 || v < 0 || u >= SIDE || v >= SIDE) return -1;
  const page = (j * layout.across + i) * PER_SECTOR + v * SIDE + u;
  return page < pages ? page : -1;
}

// A canvas of so many pixels of the page, whatever the screen's are.
function sized(canvas, width, height, ratio) {
  canvas.width = width * ratio;
  canvas.height = height * ratio;
  canvas.style.width = `${width}px`;
  canvas.style.height = `${height}px`;
  const context = canvas.getContext('2d');
  context.setTransform(ratio, 0, 0, ratio, 0, 0);
  context.textAlign = 'center';
  context.textBaseline = 'middle';
  return context;
}

export class Grid {
  // `onChoose(page)` is called when a page is chosen.
  constructor(canvas, onChoose) {
    this.canvas = canvas;
    this.chosen = -1;
    this.cells = new Uint8Array(0);
    this.drawn = null;
    this.labels = new Map();
    this.partitionOf = () => -1;
    canvas.addEventListener('click', (event) => {
      const box = canvas.getBoundingClientRect();
      const scale = this.layout.width / box.width; // style may shrink the canvas
      this.choose(pageAt(this.layout, (event.clientX - box.left) * scale, (event.clientY - box.top) * scale, this.cells.length), onChoose);
    });
    canvas.addEventListener('keydown', (event) => {
      const step = { ArrowLeft: -1, ArrowRight: 1, ArrowUp: -SIDE, ArrowDown: SIDE, PageUp: -PER_SECTOR, PageDown: PER_SECTOR }[event.key];
      if (step === undefined) return;
      event.preventDefault();
      event.stopPropagation();
      const next = this.chosen < 0 ? 0 : this.chosen + step;
      this.choose(Math.max(0, Math.min(this.cells.length - 1, next)), onChoose);
    });
  }

  // `partitionOf(sector)` is the partition that a sector belongs to, or -1.
  partition(partitionOf) {
    this.partitionOf = partitionOf;
    this.drawn = null;
  }

  choose(page, onChoose) {
    this.chosen = page;
    this.drawn = null;
    this.draw(this.cells, this.labels);
    onChoose(page);
  }

  // Draws the cells (one status a page); `labels` has the numbers of the blocks that belong to pages. Only what has changed is drawn again.
  draw(cells, labels) {
    const width = Math.max(160, Math.floor(this.canvas.parentElement.clientWidth));
    const ratio = window.devicePixelRatio || 1;
    const fresh = !this.drawn || this.drawn.length !== cells.length || this.width !== width || this.ratio !== ratio;
    if (fresh) {
      this.drawn = null;
      this.layout = layoutOf(cells.length, width);
      sized(this.canvas, this.layout.width, this.layout.height, ratio);
      Object.assign(this, { width, ratio });
    }
    const context = this.canvas.getContext('2d');
    if (fresh) this.drawBorders(context, cells.length);
    if (this.layout.cell < PLAIN_CELL) this.drawPlain(context, cells);
    else {
      for (let page = 0; page < cells.length; page++) {
        if (!this.drawn || this.drawn[page] !== cells[page]) this.drawCell(context, page, cells[page], labels.get(page));
      }
    }
    this.cells = cells;
    this.labels = labels;
    this.drawn = cells.slice();
    if (this.chosen >= 0 && this.chosen < cells.length) this.drawChosen(context);
  }

  drawBorders(context, pages) {
    const { cell, gap, width, height } = this.layout;
    context.fillStyle = '#ffffff';
    context.fillRect(0, 0, width, height);
    for (let page = 0; page < pages; page += PER_SECTOR) {
      const { x, y } = cellAt(this.layout, page);
      const partition = this.partitionOf(page / PER_SECTOR);
      const line = partition < 0 ? Math.max(1, gap / 3) : Math.max(1, gap / 2);
      context.fillStyle = borderOf(partition);
      context.fillRect(x - line, y - line, SIDE * cell + 2 * line, SIDE * cell + 2 * line);
    }
  }

  // Very many small pages: each status in one go, since a change of colour is what costs. Missing pages come last, and a little larger.
  drawPlain(context, cells) {
    const { cell } = this.layout;
    STATUS_NAMES.forEach((name, status) => {
      const more = name === 'missing' ? 2 : 0;
      context.fillStyle = COLOURS[name].fill;
      context.beginPath();
      for (let page = 0; page < cells.length; page++) {
        if (cells[page] !== status || (this.drawn && this.drawn[page] === status && !more)) continue;
        const { x, y } = cellAt(this.layout, page);
        context.rect(x - more, y - more, cell + 2 * more, cell + 2 * more);
      }
      context.fill();
    });
  }

  drawCell(context, page, status, label) {
    const name = STATUS_NAMES[status];
    const { fill, ink } = COLOURS[name];
    const { cell } = this.layout;
    const { x, y } = cellAt(this.layout, page);
    const line = cell >= 6 ? 1 : 0;
    context.fillStyle = fill;
    context.fillRect(x, y, cell, cell);
    if (line) {
      context.strokeStyle = '#8a8a8a';
      context.lineWidth = 1;
      context.strokeRect(x + 0.5, y + 0.5, cell - 1, cell - 1);
    }
    if (name === 'missing' && cell >= 6) this.drawCross(context, x, y, cell);
    if (cell < 9) return;
    context.fillStyle = ink;
    const mark = name === 'missing' ? '' : text.grid.marks[name];
    if (label === undefined || cell < 20) {
      context.font = `${Math.round(cell * 0.55)}px sans-serif`;
      context.fillText(mark, x + cell / 2, y + cell / 2 + 0.5);
      return;
    }
    context.font = `bold ${Math.round(cell * 0.48)}px sans-serif`;
    context.fillText(label, x + cell / 2, y + cell * 0.62, cell - 4);
    context.font = `${Math.round(cell * 0.3)}px sans-serif`;
    context.fillText(mark, x + cell * 0.78, y + cell * 0.22);
  }

  // A missing page is crossed out, so that it is found without its colour.
  drawCross(context, x, y, cell) {
    context.strokeStyle = 'rgba(255, 255, 255, 0.5)';
    context.lineWidth = Math.max(1, cell / 14);
    context.beginPath();
    context.moveTo(x + 2, y + 2);
    context.lineTo(x + cell - 2, y + cell - 2);
    context.moveTo(x + cell - 2, y + 2);
    context.lineTo(x + 2, y + cell - 2);
    context.stroke();
  }

  drawChosen(context) {
    const { cell } = this.layout;
    const { x, y } = cellAt(this.layout, this.chosen);
    const line = Math.max(2, cell / 10);
    context.strokeStyle = '#000000';
    context.lineWidth = line;
    context.strokeRect(x + line / 2, y + line / 2, cell - line, cell - line);
    context.strokeStyle = '#ffd400';
    context.lineWidth = line / 2;
    context.strokeRect(x + line, y + line, cell - 2 * line, cell - 2 * line);
  }
}

const MOST_BITS = 96;

// Some bits as a row of squares, with numbers where there is room. Where there are more bits than pixels, a pixel is on if all of its bits are.
export function drawBits(canvas, isBitOn, bits, width) {
  const ratio = window.devicePixelRatio || 1;
  const room = Math.max(160, Math.floor(width));
  const group = Math.max(1, Math.ceil(bits / (room * MOST_BITS)));
  const count = Math.ceil(bits / group);
  const isOn = (k) => {
    for (let bit = k * group; bit < Math.min(bits, (k + 1) * group); bit++) if (!isBitOn(bit)) return false;
    return true;
  };
  let cell = 28;
  while (cell > 1 && Math.ceil(count / Math.floor(room / cell)) * cell > MOST_BITS) cell--;
  const across = Math.max(1, Math.floor(room / cell));
  const down = Math.max(1, Math.ceil(count / across));
  const context = sized(canvas, room, down * cell, ratio);
  context.fillStyle = COLOURS.waiting.fill;
  context.fillRect(0, 0, room, down * cell);
  context.font = `bold ${Math.round(cell * 0.5)}px sans-serif`;
  const side = cell > 3 ? cell - 1 : cell;
  context.fillStyle = COLOURS.stored.fill;
  for (let k = 0; k < count; k++) if (isOn(k)) context.fillRect((k % across) * cell, Math.floor(k / across) * cell, side, side);
  if (cell < 6) return;
  context.strokeStyle = '#8a8a8a';
  for (let k = 0; k < count; k++) {
    const x = (k % across) * cell;
    const y = Math.floor(k / across) * cell;
    context.strokeRect(x + 0.5, y + 0.5, cell - 2, cell - 2);
    if (cell < 18) continue;
    context.fillStyle = isOn(k) ? COLOURS.stored.ink : COLOURS.waiting.ink;
    context.fillText(String(k), x + cell / 2 - 0.5, y + cell / 2, cell - 4);
  }
}
