// Pictures as SVG: of a shape alone, of coronas by level, and of a patch of a tiling by classes.

const LEVEL_COLOURS = ['#d1495b', '#edae49', '#66a182', '#2e6f95', '#8d6a9f', '#b5838d', '#8a8a8a'];
const CLASS_COLOURS = ['#56b4e9', '#e69f00', '#009e73', '#cc79a7', '#f0e442', '#0072b2', '#d55e00', '#999999',
  '#8dd3c7', '#bebada', '#fb8072', '#b3de69'];
const PATCH_RADIUS = 2; // of a tiling's patch, in distances between the farthest corners of a tile
const MARGIN = 12;
const LEAST_SIDE = 320; // of a picture on the page, so that a shape alone isn't blown up
const LINE_HEIGHT = 18; // of the legend in a saved picture
const CHARACTER_WIDTH = 7.2;

/** Colours of lines on the page, which follow light and dark, and in a saved picture, which is for paper. */
const PAGE_LINES = {outer: 'var(--edge)', pale: 'var(--pale-edge)', inner: 'var(--inner-edge)'};
const SAVED_LINES = {outer: '#1a1a1a', pale: '#666666', inner: 'rgb(255 255 255 / 0.6)'};

function colourOfLevel(level) {
  return LEVEL_COLOURS[level % LEVEL_COLOURS.length];
}

function colourOfClass(number) {
  return CLASS_COLOURS[(number - 1) % CLASS_COLOURS.length];
}

function escaped(text) {
  return text.replace(/&/g, '&amp;').replace(/</g, '&lt;').replace(/"/g, '&quot;');
}

/** Tiles of one colour. `words` are those of the legend, or null where the legend has no line for the group. */
class TileGroup {
  constructor(colour, tiles, words, opacity = 1) {
    this.colour = colour;
    this.tiles = tiles;
    this.words = words;
    this.opacity = opacity;
  }
}

/** A picture: groups of tiles, and the rectangle that they fill. */
class Picture {
  constructor(grid, groups) {
    this.grid = grid;
    this.groups = groups;
    this.bounds = boundsOf(groups.flatMap(group => group.tiles.flatMap(cells => grid.points(cells))));
  }

  get legend() {
    return this.groups.filter(group => group.words !== null);
  }

  /** The markup of all groups: of each the areas, then the edges between cells, then the outlines of tiles. */
  markup(lines) {
    return this.groups.map(group => this.groupMarkup(group, lines)).join('');
  }

  groupMarkup(group, lines) {
    const edges = group.tiles.map(cells => this.grid.edges(cells));
    const outlines = edges.flatMap(({loops}) => loops).map(loop => this.path(loop) + 'Z').join('');
    const inner = edges.flatMap(({inner}) => inner).map(edge => this.path(edge)).join('');
    const [line, width] = group.opacity < 1 ? [lines.pale, 1.2] : [lines.outer, 2.2];
    const fill = `fill="${group.colour}" fill-opacity="${rounded(group.opacity)}" fill-rule="evenodd"`;
    return `<path d="${outlines}" ${fill}/>`
      + (inner && `<path d="${inner}" fill="none" stroke="${lines.inner}" stroke-width="0.8"/>`)
      + `<path d="${outlines}" fill="none" stroke="${line}" stroke-width="${width}" stroke-linejoin="round"/>`;
  }

  path(corners) {
    return 'M' + corners.map(corner => this.grid.inPicture(corner).map(rounded).join(' ')).join('L');
  }

  /** The picture for the page. */
  forPage(description) {
    const [left, top, right, bottom] = this.bounds;
    const width = Math.max(right - left + 2 * MARGIN, LEAST_SIDE);
    const height = Math.max(bottom - top + 2 * MARGIN, LEAST_SIDE);
    const box = [(left + right - width) / 2, (top + bottom - height) / 2, width, height];
    return `<svg viewBox="${box.map(rounded).join(' ')}" role="img" aria-label="${escaped(description)}">`
      + `${this.markup(PAGE_LINES)}</svg>`;
  }

  /** The picture as a file of its own, on white, with the legend and a caption below. */
  forFile(caption) {
    const [left, top, right, bottom] = this.bounds, legend = this.legend;
    const longest = Math.max(caption.length, ...legend.map(group => group.words.length + 3));
    const width = Math.max(right - left, CHARACTER_WIDTH * longest) + 2 * MARGIN;
    const height = bottom - top + 3 * MARGIN + LINE_HEIGHT * (legend.length + 1);
    const words = legend.map(({colour, words}, row) => {
      const y = bottom + MARGIN + LINE_HEIGHT * row;
      return `<rect x="${rounded(left)}" y="${rounded(y)}" width="12" height="12" fill="${colour}"/>`
        + `<text x="${rounded(left + 18)}" y="${rounded(y + 10.5)}">${escaped(words)}</text>`;
    });
    const captionAt = bottom + MARGIN + LINE_HEIGHT * legend.length + 11;
    words.push(`<text x="${rounded(left)}" y="${rounded(captionAt)}">${escaped(caption)}</text>`);
    const [x, y] = [rounded(left - MARGIN), rounded(top - MARGIN)];
    return `<svg xmlns="http://www.w3.org/2000/svg" viewBox="${x} ${y} ${rounded(width)} ${rounded(height)}" `
      + `width="${Math.round(width)}" height="${Math.round(height)}">\n<title>${escaped(caption)}</title>\n`
      + `<rect x="${x}" y="${y}" width="100%" height="100%" fill="#ffffff"/>\n${this.markup(SAVED_LINES)}\n`
      + `<g font-family="DejaVu Sans, Verdana, sans-serif" font-size="12" fill="#1a1a1a">\n${words.join('\n')}\n</g>\n`
      + '</svg>\n';
  }
}

function rounded(number) {
  return Math.round(number * 100) / 100;
}

/** The shape alone, in the colour of its verdict. */
function shapePicture(grid, shape) {
  return new Picture(grid, [new TileGroup(shape.colour, [shape.cells], null)]);
}

/** The small picture of a shape, in a square of this side or, where it is larger, of its own. */
function smallPicture(grid, shape, side) {
  const picture = shapePicture(grid, shape);
  const [left, top, right, bottom] = picture.bounds;
  const extent = Math.max(side, right - left, bottom - top) + 4;
  const box = [(left + right - extent) / 2, (top + bottom - extent) / 2, extent, extent];
  return `<svg viewBox="${box.map(rounded).join(' ')}" aria-hidden="true">${picture.markup(PAGE_LINES)}</svg>`;
}

/** The shape with coronas, by level. */
function coronaPicture(grid, shape, layers) {
  const groups = layers.map((layer, i) => {
    const tiles = tuples(layer).map(isometry => grid.image(isometry, shape.cells));
    return new TileGroup(colourOfLevel(i + 1), tiles, `corona ${i + 1}: ${counted(tiles.length, 'tile')}`);
  });
  return new Picture(grid, [new TileGroup(colourOfLevel(0), [shape.cells], 'the shape'), ...groups]);
}

/**
 * A patch of the tiling, by classes: every tile whose centre lies near enough to that of the first tile. Of each tile
 * of a period the translate nearest to the first one is in full colour. The others are paler, and each tint of a class
 * is that of the translates of one tile.
 */
function tilingPicture(grid, shape) {
  const lattice = tuples(shape.entry.lattice)[0];
  const tiles = tuples(shape.entry.cover).map(([turn, da, db, number]) =>
    ({number, cells: grid.image([turn, da, db], shape.cells)}));
  const corners = grid.points(tiles[0].cells), middle = centreOf(corners);
  const within = PATCH_RADIUS * Math.max(...corners.map(p => Math.max(...corners.map(q => distance(p, q)))));
  const copies = tiles.map(tile => translates(grid, tile.cells, lattice, middle, within));
  const groups = classesOf(tiles).flatMap(({number, members}) => members.map((i, rank) =>
    new TileGroup(colourOfClass(number), copies[i].slice(1), null, tint(rank, members.length))));
  const period = classesOf(tiles).map(({number, members}) => new TileGroup(colourOfClass(number),
    members.map(i => copies[i][0]), `class ${number}: ${ofPeriod(members.length, tiles.length)}`));
  return new Picture(grid, [...groups.filter(group => group.tiles.length), ...period]);
}

/** In words, how many of the tiles of a period there are. */
function ofPeriod(some, all) {
  if (all === 1) return 'the one tile of a period';
  return some === all ? `all ${all} tiles of a period` : `${some} of the ${all} tiles of a period`;
}

/** The opacity of the translates of a tile: they spread evenly where a class has several tiles. */
function tint(rank, count) {
  return count === 1 ? 0.45 : 0.3 + 0.35 * rank / (count - 1);
}

/** The classes, each with its number and the places of its tiles in the list. */
function classesOf(tiles) {
  const numbers = [...new Set(tiles.map(({number}) => number))].sort((m, n) => m - n);
  return numbers.map(number => ({number, members: [...tiles.keys()].filter(i => tiles[i].number === number)}));
}

/** The nearest translate of a tile, and then all others, whose centre lies within a distance of a point. */
function translates(grid, cells, lattice, middle, within) {
  const centre = centreOf(grid.points(cells));
  const reach = within + distance(centre, middle);
  return grid.latticeVectors(lattice, reach).map(([a, b]) => {
    const [x, y] = grid.inPicture([grid.scale * a, grid.scale * b]);
    return {vector: [a, b], distance: distance([centre[0] + x, centre[1] + y], middle)};
  }).sort((one, other) => one.distance - other.distance)
    .filter(({distance}, i) => i === 0 || distance <= within)
    .map(({vector: [da, db]}) => cells.map(([a, b]) => [a + da, b + db]));
}
