// Puts the page together, and keeps its address in step with what is shown.

/** The bar of the tally: a piece for each answer of the verdicts, as wide as its share of all shapes. */
function drawTally(filters) {
  const pieces = filters.questions.filter(({group}) => group === 'verdict').flatMap(question =>
    [...filters.counts(question)].map(([answer, count]) => {
      const piece = element('span', {title: `${question.title} ${question.look(answer).words}: ${count}`});
      piece.style.background = question.look(answer).colour;
      piece.style.flexGrow = count;
      return piece;
    }));
  document.getElementById('tally').replaceChildren(...pieces);
}

/** The page: filters, gallery and dialogue over one catalogue. */
class Page {
  constructor(catalogue) {
    const grid = new Grid(catalogue.grid);
    this.shapes = catalogue.shapes.map((entry, i) => new Shape(entry, i + 1));
    this.filters = new Filters(this.shapes);
    this.controls = new Controls(this.filters, () => { this.update(); this.writeAddress(); });
    this.gallery = new Gallery(grid, this.shapes, shape => this.opened.open(shape));
    this.opened = new Opened(grid, catalogue, () => this.shown, shape => this.whenOpenedOrClosed(shape));
    drawTally(this.filters);
    this.readAddress();
    addEventListener('hashchange', () => this.readAddress());
  }

  /** Shows what the filters admit. */
  update() {
    this.shown = this.filters.admitted();
    this.gallery.show(this.shown);
    this.controls.update(this.shown.length);
  }

  /** Where the dialogue was closed, the shape that it showed last has the focus. */
  whenOpenedOrClosed(shape) {
    if (!this.opened.shape) this.gallery.focus(shape);
    this.writeAddress();
  }

  /** The address keeps what is chosen and which shape is open, so that a view can be linked. */
  writeAddress() {
    const pairs = this.filters.pairs;
    if (this.opened.shape) pairs.push(['shape', this.opened.shape.number]);
    const words = pairs.map(pair => pair.join('=')).join('&');
    history.replaceState(null, '', words ? `#${words}` : location.pathname + location.search);
  }

  /** Takes choices and the opened shape from the address. */
  readAddress() {
    const pairs = new Map(location.hash.slice(1).split('&').map(pair => pair.split('=')));
    this.filters.take(pairs);
    this.update();
    const shape = this.shapes[Number(pairs.get('shape')) - 1];
    if (shape) this.opened.open(shape);
    else this.opened.close();
  }
}

new Page(JSON.parse(document.getElementById('catalogue').textContent));
