// The filters on the page: for each question a row of answers with their counts.

/** An element with properties and children. */
function element(name, properties = {}, ...children) {
  const made = Object.assign(document.createElement(name), properties);
  made.append(...children);
  return made;
}

function swatch(colour) {
  const made = element('span', {className: 'swatch'});
  made.style.background = colour;
  return made;
}

/** The rows of questions, kept in step with what is chosen. */
class Controls {
  constructor(filters, whenChanged) {
    this.filters = filters;
    this.whenChanged = whenChanged;
    this.boxes = [];
    const place = document.getElementById('questions');
    for (const question of filters.questions) place.append(this.row(question));
    document.getElementById('clear').addEventListener('click', () => {
      filters.clear();
      whenChanged();
      document.getElementById('questions').querySelector('input').focus();
    });
  }

  row(question) {
    const answers = question.answers.map(answer => this.answer(question, answer));
    return element('fieldset', {name: question.name}, element('legend', {textContent: question.title}), ...answers);
  }

  answer(question, answer) {
    const {words, colour} = question.look(answer);
    const input = element('input', {type: 'checkbox', name: question.name, value: answer});
    const count = element('span', {className: 'count'});
    input.addEventListener('change', () => {
      if (input.checked) question.chosen.add(answer);
      else question.chosen.delete(answer);
      this.whenChanged();
    });
    this.boxes.push({question, answer, input, count});
    const label = element('span', {className: 'answer', textContent: words});
    return element('label', {}, input, ...(colour ? [swatch(colour)] : []), label, count);
  }

  /** Shows the counts and choices, and how many shapes are shown. */
  update(shown) {
    const counts = new Map(this.filters.questions.map(question => [question, this.filters.counts(question)]));
    for (const {question, answer, input, count} of this.boxes) {
      const number = counts.get(question).get(answer);
      count.textContent = number.toLocaleString('en');
      input.checked = question.chosen.has(answer);
      input.disabled = number === 0 && !input.checked;
    }
    const all = this.filters.shapes.length;
    document.getElementById('shown').textContent = shown === all ? `All ${counted(all, 'shape')}`
      : `${shown.toLocaleString('en')} of ${counted(all, 'shape')}`;
    document.getElementById('clear').hidden = !this.filters.isAnyChosen;
  }
}
