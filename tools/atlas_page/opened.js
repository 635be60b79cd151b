// The dialogue that shows one shape larger, with its coronas or its tiling.

const TINTS = 'In full colour: the tiles of one period. In each tint: the translates of one of them.';

/**
 * The dialogue. It steps from shape to shape among those that `shown` answers. `whenChanged` is called when a shape
 * was opened and when the dialogue was closed, with the shape that was opened last.
 */
class Opened {
  constructor(grid, catalogue, shown, whenChanged) {
    this.grid = grid;
    this.catalogue = catalogue;
    this.shown = shown;
    this.whenChanged = whenChanged;
    this.shape = null;
    this.part = name => this.dialog.querySelector(`[data-part="${name}"]`);
    this.dialog = document.getElementById('opened');
    this.part('previous').addEventListener('click', () => this.step(-1));
    this.part('next').addEventListener('click', () => this.step(1));
    this.part('close').addEventListener('click', () => this.dialog.close());
    this.part('copy').addEventListener('click', () => this.copy());
    this.part('save').addEventListener('click', () => this.save());
    this.dialog.addEventListener('click', event => { if (event.target === this.dialog) this.dialog.close(); });
    addEventListener('keydown', event => this.key(event));
    this.dialog.addEventListener('close', () => this.closed());
  }

  closed() {
    const shape = this.shape;
    this.shape = null;
    this.whenChanged(shape);
  }

  /** Shows a shape, in the dialogue that is opened where it isn't. */
  open(shape) {
    this.shape = shape;
    const {entry} = shape;
    this.part('title').textContent = `Shape ${shape.number}`;
    this.part('verdict').textContent = shape.sentences.join(' ');
    this.part('line').textContent = `verdict ${shape.line}`;
    this.part('cells').textContent = entry.cells;
    this.part('copied').textContent = '';
    this.part('brief').hidden = this.catalogue.kind !== 'brief';
    this.showChoices(shape.pictures(this.grid));
    this.showNeighbours();
    if (!this.dialog.open) this.dialog.showModal();
    this.dialog.scrollTop = 0;
    this.whenChanged(shape);
  }

  close() {
    if (this.dialog.open) this.dialog.close();
  }

  /** Buttons for the pictures, where there are several, and the first of them. */
  showChoices(pictures) {
    const place = this.part('pictures');
    place.hidden = pictures.length < 2;
    place.replaceChildren(...pictures.map(picture => {
      const button = element('button', {type: 'button', textContent: picture.name});
      button.addEventListener('click', () => this.showPicture(picture, button));
      return button;
    }));
    this.showPicture(pictures[0], place.firstElementChild);
  }

  /** Shows one of the pictures, with its legend. */
  showPicture({name, make}, button) {
    for (const other of this.part('pictures').children) other.setAttribute('aria-pressed', other === button);
    this.name = name;
    this.picture = make();
    const legend = this.picture.legend;
    const words = [`${name} ${this.shape.number}`, ...legend.map(group => group.words)];
    this.part('picture').innerHTML = this.picture.forPage(words.join(', '));
    const lines = legend.map(group => element('li', {}, swatch(group.colour), group.words));
    const {cover, domain} = this.shape.entry;
    if (cover && domain > 1) lines.push(element('li', {className: 'tints', textContent: TINTS}));
    this.part('legend').replaceChildren(...lines);
  }

  /** Shows which of the shapes it is, and whether there is one before and one behind it. */
  showNeighbours() {
    const shapes = this.shown(), at = shapes.indexOf(this.shape);
    this.part('previous').disabled = at <= 0;
    this.part('next').disabled = at < 0 || at === shapes.length - 1;
    this.part('place').textContent = at < 0 ? 'not among the shapes that the filters show'
      : `${(at + 1).toLocaleString('en')} of ${counted(shapes.length, 'shape')}`;
  }

  /** Shows the shape so many places further, where there is one. */
  step(by) {
    const shapes = this.shown(), at = shapes.indexOf(this.shape);
    const next = at < 0 ? null : shapes[at + by];
    if (next) this.open(next);
  }

  /** The arrow keys step. They are taken wherever the focus is, since a button that is disabled loses it. */
  key(event) {
    if (!this.shape || event.ctrlKey || event.altKey || event.metaKey) return;
    if (event.key === 'ArrowLeft') this.step(-1);
    else if (event.key === 'ArrowRight') this.step(1);
    else return;
    event.preventDefault();
  }

  /** Copies the cells as `classify given` reads them; where the browser refuses, marks them for copying. */
  async copy() {
    try {
      await navigator.clipboard.writeText(this.shape.entry.cells);
      this.part('copied').textContent = 'Copied.';
    } catch {
      getSelection().selectAllChildren(this.part('cells'));
      const isCopied = document.execCommand('copy');
      this.part('copied').textContent = isCopied ? 'Copied.' : 'Marked: copy with the keyboard.';
    }
  }

  /** Saves the picture that is shown as a file. */
  save() {
    const caption = `${this.catalogue.grid.name}, ${counted(this.shape.cells.length, 'cell')}: ${this.shape.line}`;
    const file = new Blob([this.picture.forFile(caption)], {type: 'image/svg+xml'});
    const link = element('a', {href: URL.createObjectURL(file), download: this.fileName});
    link.click();
    setTimeout(() => URL.revokeObjectURL(link.href), 60000);
  }

  get fileName() {
    const words = [this.catalogue.grid.name, this.shape.cells.length, this.shape.number, this.name];
    return `${words.join('-').toLowerCase().replaceAll(' ', '-')}.svg`;
  }
}
