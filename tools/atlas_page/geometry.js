// Where cells, corners and isometries of the grid lie in the plane of a picture. docs/FORMAT.md, sections 1, 8 and 13.

const CELL_AREA = 700; // of a cell in a picture, so that the cells of all grids are of one size

/** The tuples of numbers in a text such as `0,1,-4 2,1,1`. */
function tuples(text) {
  return text.split(' ').map(word => word.split(',').map(Number));
}

/** The area of a polygon, given by its points in order. */
function areaOf(polygon) {
  let twice = 0;
  polygon.forEach(([x, y], i) => {
    const [nextX, nextY] = polygon[(i + 1) % polygon.length];
    twice += x * nextY - nextX * y;
  });
  return Math.abs(twice) / 2;
}

/** The mean of points. */
function centreOf(points) {
  let x = 0, y = 0;
  for (const point of points) { x += point[0]; y += point[1]; }
  return [x / points.length, y / points.length];
}

function distance(p, q) {
  return Math.hypot(p[0] - q[0], p[1] - q[1]);
}

/** The least rectangle around points: its left, top, right and bottom. */
function boundsOf(points) {
  const bounds = [Infinity, Infinity, -Infinity, -Infinity];
  for (const [x, y] of points) {
    bounds[0] = Math.min(bounds[0], x);
    bounds[1] = Math.min(bounds[1], y);
    bounds[2] = Math.max(bounds[2], x);
    bounds[3] = Math.max(bounds[3], y);
  }
  return bounds;
}

/** A grid, by the tables that the catalogue's page carries. */
class Grid {
  constructor(tables) {
    this.name = tables.name;
    this.unit = tables.unit;
    this.scale = tables.scale;
    this.slanted = tables.slanted;
    this.turns = tables.turns;
    this.cornersOfKind = new Map(tables.kinds.map(({cell, corners}) => [this.kindOf(cell), corners]));
    this.zoom = 1;
    const someCell = tables.kinds[0].cell;
    this.zoom = Math.sqrt(CELL_AREA / areaOf(this.corners(someCell).map(corner => this.inPicture(corner))));
  }

  kindOf([a, b]) {
    const residue = n => ((n % this.unit) + this.unit) % this.unit;
    return residue(a) * this.unit + residue(b);
  }

  /** The corners of a cell, in whole numbers of the corners' scale, in the order in which its outline goes round. */
  corners(cell) {
    const [a, b] = [this.scale * cell[0], this.scale * cell[1]];
    return this.cornersOfKind.get(this.kindOf(cell)).map(([x, y]) => [a + x, b + y]);
  }

  /** The point of a picture at which a corner lies; in a picture y goes down. */
  inPicture([x, y]) {
    const [a, b] = [x / this.scale * this.zoom, y / this.scale * this.zoom];
    return this.slanted ? [a + b / 2, -b * Math.sqrt(3) / 2] : [a, -b];
  }

  /** The cells under an isometry [turn, da, db]: the turn, and then the translation in units. */
  image([turn, da, db], cells) {
    const [aa, ab, ba, bb] = this.turns[turn];
    return cells.map(([a, b]) => [aa * a + ab * b + this.unit * da, ba * a + bb * b + this.unit * db]);
  }

  /** All corners of a set of cells, as points of a picture. */
  points(cells) {
    return cells.flatMap(cell => this.corners(cell).map(corner => this.inPicture(corner)));
  }

  /** The edges of a set of cells: the inner ones, and the outer ones joined to loops, all as corners. */
  edges(cells) {
    const outer = new Map(), inner = [];
    for (const cell of cells) {
      const corners = this.corners(cell);
      corners.forEach((from, i) => {
        const to = corners[(i + 1) % corners.length];
        if (outer.delete(`${to} ${from}`)) inner.push([from, to]);
        else outer.set(`${from} ${to}`, [from, to]);
      });
    }
    return {inner, loops: loopsOf([...outer.values()])};
  }

  /** The lattice vectors of at most this length in a picture, as differences of cells. */
  latticeVectors([p, q, s], reach) {
    const first = [this.unit * p, 0], second = [this.unit * s, this.unit * q];
    const inPicture = ([a, b]) => this.inPicture([this.scale * a, this.scale * b]);
    const wide = inPicture(first)[0], high = Math.abs(inPicture(second)[1]);
    const rows = Math.floor(reach / high) + 1, vectors = [];
    for (let j = -rows; j <= rows; j++) {
      const middle = -inPicture([j * second[0], j * second[1]])[0] / wide;
      for (let i = Math.floor(middle - reach / wide); i <= Math.ceil(middle + reach / wide); i++) {
        const vector = [i * first[0] + j * second[0], j * second[1]];
        if (Math.hypot(...inPicture(vector)) <= reach) vectors.push(vector);
      }
    }
    return vectors;
  }
}

/** Directed edges joined to closed loops of corners. Each corner has as many edges to it as from it. */
function loopsOf(edges) {
  const from = new Map();
  for (const edge of edges) {
    const key = String(edge[0]);
    if (from.has(key)) from.get(key).push(edge);
    else from.set(key, [edge]);
  }
  const loops = [];
  for (const edge of edges) {
    const loop = [];
    let next = from.get(String(edge[0])).pop();
    while (next) {
      loop.push(next[0]);
      next = from.get(String(next[1])).pop();
    }
    if (loop.length) loops.push(loop);
  }
  return loops;
}
