// The questions by which shapes are counted and filtered, and the choices among their answers.

const ANSWER_ORDER = [...Object.keys(KINDS), ...UNDECIDED_BY, 'yes', 'no', 'spent'];

/**
 * A question about shapes. `of` gives the answer of a shape as text, or null where it has none; `look` gives the words
 * of an answer and, where shapes are coloured by it, its colour. Choices among questions of one group add up, and each
 * group narrows what the others leave: a shape has one verdict, but a number of classes besides.
 */
class Question {
  constructor(name, title, group, of, look = answer => ({words: answer})) {
    this.name = name;
    this.title = title;
    this.group = group;
    this.of = of;
    this.look = look;
    this.chosen = new Set();
    this.answers = [];
  }

  /** Finds the answers that occur among the shapes: numbers first, and then words, each in their order. */
  findAnswers(shapes) {
    const found = new Set(shapes.map(this.of));
    found.delete(null);
    const rank = answer => ANSWER_ORDER.indexOf(answer);
    this.answers = [...found].sort((a, b) => rank(a) - rank(b) || Number(a) - Number(b));
  }
}

/**
 * The questions that have answers among the shapes; where no shape has a hole, nothing is asked about holes. Their
 * names are those of the options of `select`.
 */
function questionsOf(shapes) {
  const questions = [
    new Question('tiles', 'Tilings', 'verdict', shape => shape.entry.tiles ?? null,
      answer => ({words: KINDS[answer], colour: KIND_COLOURS[answer]})),
    new Question('heesch', 'Heesch number', 'verdict', shape => shape.heesch,
      answer => ({words: answer, colour: colourOfHeesch(Number(answer))})),
    new Question('undecided', 'Undecided by', 'verdict', shape => shape.entry.undecided ?? null,
      answer => ({words: answer, colour: UNDECIDED_COLOUR})),
    new Question('classes', 'Classes of tiles', 'classes', shape => shape.classes),
    new Question('outer', 'Outer number', 'outer', shape => shape.outer,
      answer => ({words: answer === 'spent' ? 'not found' : answer})),
    new Question('holed', 'Hole in the shape', 'holed', shape => shape.entry.holed ? 'yes' : 'no'),
  ];
  for (const question of questions) question.findAnswers(shapes);
  return questions.filter(({answers}) => answers.length && String(answers) !== 'no');
}

/** The shapes, the questions about them, and what is chosen. */
class Filters {
  constructor(shapes) {
    this.shapes = shapes;
    this.questions = questionsOf(shapes);
  }

  get isAnyChosen() {
    return this.questions.some(({chosen}) => chosen.size);
  }

  clear() {
    for (const {chosen} of this.questions) chosen.clear();
  }

  /** The shapes that have a chosen answer in each group where one is chosen; one group may be left out. */
  admitted(leftOut = null) {
    const demands = new Map();
    for (const question of this.questions) {
      if (!question.chosen.size || question.group === leftOut) continue;
      demands.set(question.group, [...demands.get(question.group) ?? [], question]);
    }
    const meets = (shape, questions) => questions.some(({chosen, of}) => chosen.has(of(shape)));
    const all = [...demands.values()];
    return this.shapes.filter(shape => all.every(questions => meets(shape, questions)));
  }

  /** For each answer of a question, how many shapes have it, of those that the other groups admit. */
  counts(question) {
    const counts = new Map(question.answers.map(answer => [answer, 0]));
    for (const shape of this.admitted(question.group)) {
      const answer = question.of(shape);
      if (answer !== null) counts.set(answer, counts.get(answer) + 1);
    }
    return counts;
  }

  /** The choices as pairs of an address: a question's name, and its chosen answers. */
  get pairs() {
    return this.questions.filter(({chosen}) => chosen.size)
      .map(({name, answers, chosen}) => [name, answers.filter(answer => chosen.has(answer)).join(',')]);
  }

  /** Takes the choices from the pairs of an address; names and answers that aren't here are passed over. */
  take(pairs) {
    for (const question of this.questions) {
      const words = (pairs.get(question.name) ?? '').split(',');
      question.chosen = new Set(question.answers.filter(answer => words.includes(answer)));
    }
  }
}
