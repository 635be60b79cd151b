// The shapes of the catalogue, and in words what it says of them.

const KINDS = {translation: 'translation', halfturn: 'half-turn', periodic: 'periodic'};
const UNDECIDED_BY = ['levels', 'holes', 'turns', 'size'];
const KIND_COLOURS = {translation: '#6db5ee', halfturn: '#22a179', periodic: '#7f68d1'};
const HEESCH_COLOURS = ['#f4cf65', '#f19a3e', '#dd5a45', '#b5336b', '#8a2a86', '#64308f'];
const UNDECIDED_COLOUR = '#9aa3ad';

/** A number and its noun: `1 tile`, `2 tiles`, `3 classes`. */
function counted(number, noun) {
  const plural = noun.endsWith('s') ? `${noun}es` : `${noun}s`;
  return `${number.toLocaleString('en')} ${number === 1 ? noun : plural}`;
}

/** A shape with its number in the catalogue. `entry` is what the page carries of it. */
class Shape {
  constructor(entry, number) {
    this.entry = entry;
    this.number = number;
    this.knownCells = null;
  }

  get cells() {
    this.knownCells ??= tuples(this.entry.cells);
    return this.knownCells;
  }

  /** The Heesch number, where the catalogue has it, as text. */
  get heesch() {
    return 'heesch' in this.entry ? String(this.entry.heesch) : null;
  }

  /** The number of classes of its written tiling, as text. */
  get classes() {
    return this.entry.classes ? String(this.entry.classes) : null;
  }

  /** The outer number, or `spent` where its search was given up, as text; null where nothing is known of it. */
  get outer() {
    const {word, number} = this.entry.outer ?? {};
    if (word === 'number') return String(number);
    return word === 'spent' ? word : null;
  }

  get colour() {
    if (this.entry.tiles) return KIND_COLOURS[this.entry.tiles];
    if (this.entry.undecided) return UNDECIDED_COLOUR;
    return colourOfHeesch(this.entry.heesch);
  }

  /** A short mark of the verdict beside the number, so that colour isn't all that tells it. */
  get mark() {
    if (this.entry.undecided) return '?';
    return this.entry.tiles ? '' : `H${this.entry.heesch}`;
  }

  /** The verdict in a few words. */
  get verdict() {
    const {tiles, undecided, heesch, levels} = this.entry;
    if (tiles) return `tiles, ${KINDS[tiles]}`;
    if (undecided) return `undecided by ${undecided}, with ${counted(levels, 'hole-free corona')}`;
    return `Heesch number ${heesch}`;
  }

  /** The verdict in sentences. */
  get sentences() {
    const {tiles, undecided, outer, holed} = this.entry;
    const words = tiles ? tilingWords(this.entry) : undecided ? undecidedWords(this.entry) : heeschWords(this.entry);
    if (outer) words.push(...outerWords(outer));
    if (holed) words.push('The shape has a hole.');
    return words;
  }

  /** The verdict line of the catalogue. */
  get line() {
    const {tiles, domain, classes, undecided, levels, phase, goal, heesch, nontiler} = this.entry;
    if (tiles) return `tiles ${tiles} domain ${domain} classes ${classes}`;
    if (undecided) return `undecided ${undecided} ${levels}` + (phase ? ` ${phase} ${goal}` : '');
    return `heesch ${heesch} nontiler ${nontiler}`;
  }

  /** The pictures that can be drawn of it: each with its name, and a function that makes it. */
  pictures(grid) {
    const {cover, coronas, open, outer} = this.entry;
    if (cover) return [{name: 'Tiling', make: () => tilingPicture(grid, this)}];
    const kinds = {'Outer coronas': outer?.coronas, 'Hole-free coronas': coronas, 'Coronas with holes': open};
    const pictures = Object.entries(kinds).filter(([, layers]) => layers)
      .map(([name, layers]) => ({name, make: () => coronaPicture(grid, this, layers)}));
    return pictures.length ? pictures : [{name: 'Shape', make: () => shapePicture(grid, this)}];
  }
}

function colourOfHeesch(number) {
  return HEESCH_COLOURS[Math.min(number, HEESCH_COLOURS.length - 1)];
}

function tilingWords({tiles, domain, classes}) {
  const ways = {
    translation: 'It tiles the plane by translations.',
    halfturn: 'It tiles the plane by translations and half-turns.',
    periodic: 'It tiles the plane periodically.',
  };
  return [ways[tiles], `This tiling has ${counted(domain, 'tile')} a period, in ${counted(classes, 'class')}.`];
}

function heeschWords({heesch, nontiler}) {
  const words = [`Heesch number ${heesch}: ${exactly(heesch)}.`, 'It does not tile the plane.'];
  if (nontiler > heesch + 1) {
    words.push(`Where coronas may have holes, there ${beCoronas(nontiler - 1, 'corona')}, and not ${nontiler}.`);
  }
  return words;
}

function undecidedWords({undecided, levels, phase, goal}) {
  const start = phase === 'bare' || undecided === 'holes' ? `${exactly(levels)}; ` : found(levels);
  const ends = {
    levels: () => 'no more were sought',
    holes: () => 'where coronas may have holes, there are as many as were sought',
    turns: () => `the search for ${sought(goal, phase)} used up its turns`,
    size: () => `the formula for ${sought(goal, phase)} is larger than the limit`,
  };
  return [`Undecided: ${start}${ends[undecided]()}.`, 'It may tile.'];
}

function sought(goal, phase) {
  return counted(goal, 'corona') + (phase === 'bare' ? ' with holes' : '');
}

function outerWords({word, number}) {
  if (word === 'number') return [`Outer number ${number}: the most coronas of which the outermost may have holes.`];
  return word === 'spent' ? ['The search for its outer number used up its turns.'] : [];
}

/** The clause that there are so many hole-free coronas, and no more. */
function exactly(number) {
  if (number === 0) return 'there is no hole-free corona';
  return `there ${beCoronas(number, 'hole-free corona')}, and not ${number + 1}`;
}

/** The clause that so many hole-free coronas were found, to be followed by what came then. */
function found(number) {
  return number === 0 ? '' : `there ${beCoronas(number, 'hole-free corona')}, and `;
}

function beCoronas(number, noun) {
  return `${number === 1 ? 'is' : 'are'} ${counted(number, noun)}`;
}
