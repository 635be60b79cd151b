// The shapes as small pictures in catalogue order.

const SAMPLE = 400; // shapes by which the usual size of a shape is found
const USUAL_SHARE = 0.8; // of the shapes, that fit into a small picture at the size that most have

/** The side of a square into which most shapes fit. */
function usualSide(grid, shapes) {
  const step = Math.max(1, Math.floor(shapes.length / SAMPLE));
  const sides = shapes.filter((_, i) => i % step === 0).map(shape => {
    const [left, top, right, bottom] = boundsOf(grid.points(shape.cells));
    return Math.max(right - left, bottom - top);
  });
  return sides.sort((a, b) => a - b)[Math.floor((sides.length - 1) * USUAL_SHARE)];
}

/** The gallery: a button for each shape, whose picture is drawn when it comes near the view. */
class Gallery {
  constructor(grid, shapes, whenOpened) {
    this.grid = grid;
    this.place = document.getElementById('shapes');
    this.side = usualSide(grid, shapes);
    this.buttons = shapes.map(shape => this.button(shape));
    this.shapeOf = new Map(this.buttons.map((button, i) => [button, shapes[i]]));
    this.shown = [];
    this.place.append(...this.buttons);
    this.watch();
    this.place.addEventListener('click', event => {
      const button = event.target.closest('button');
      if (button) whenOpened(this.shapeOf.get(button));
    });
    this.place.addEventListener('keydown', event => this.step(event));
    this.place.addEventListener('focusin', event => this.makeCurrent(event.target.closest('button')));
    addEventListener('beforeprint', () => this.shown.forEach(button => this.draw(button)));
  }

  button(shape) {
    const words = element('span', {textContent: shape.number}), {mark} = shape;
    if (mark) words.append(' ', element('b', {textContent: mark}));
    const button = element('button', {type: 'button', tabIndex: -1}, words);
    button.setAttribute('aria-label', `Shape ${shape.number}: ${shape.verdict}`);
    button.title = shape.verdict;
    return button;
  }

  /** Draws each picture when it comes near the view. */
  watch() {
    this.observer = new IntersectionObserver(seen => {
      for (const {target, isIntersecting} of seen) if (isIntersecting) this.draw(target);
    }, {rootMargin: '600px'});
    for (const button of this.buttons) this.observer.observe(button);
  }

  /** Draws the picture of a button, where that isn't done. */
  draw(button) {
    if (button.children.length > 1) return;
    this.observer.unobserve(button);
    button.insertAdjacentHTML('afterbegin', smallPicture(this.grid, this.shapeOf.get(button), this.side));
  }

  /** Shows these shapes alone. */
  show(shapes) {
    const wanted = new Set(shapes.map(({number}) => number));
    this.buttons.forEach((button, i) => { button.hidden = !wanted.has(i + 1); });
    this.shown = this.buttons.filter(button => !button.hidden);
    if (this.current?.hidden ?? true) this.makeCurrent(this.shown[0]);
    document.getElementById('none').hidden = this.shown.length > 0;
  }

  /** The button at which the Tab key arrives. */
  makeCurrent(button) {
    if (this.current) this.current.tabIndex = -1;
    this.current = button;
    if (button) button.tabIndex = 0;
  }

  /** Brings a shape's button into view and gives it the focus, where it is shown. */
  focus(shape) {
    const button = this.buttons[shape.number - 1];
    if (!button.hidden) button.focus();
  }

  /** Arrow keys, Home and End move from shape to shape. */
  step(event) {
    const columns = getComputedStyle(this.place).gridTemplateColumns.split(' ').length;
    const at = this.shown.indexOf(this.current), last = this.shown.length - 1;
    const targets = {
      ArrowLeft: at - 1, ArrowRight: at + 1, ArrowUp: at - columns, ArrowDown: at + columns, Home: 0, End: last};
    if (!(event.key in targets) || event.ctrlKey || event.altKey || event.metaKey) return;
    event.preventDefault();
    this.shown[targets[event.key]]?.focus();
  }
}
