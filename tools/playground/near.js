// What was meant in place of a name that isn't known.

// How alike two words are, from 0 to 1: twice the letters of their longest common parts, by the letters of both.
function likeness(one, other) {
  const common = (a, b) => {
    let best = {length: 0, from: 0, to: 0};
    for (let from = 0; from < a.length; from++) {
      for (let to = 0; to < b.length; to++) {
        let length = 0;
        while (from + length < a.length && a[from + length] === b[to + length]) length++;
        if (length > best.length) best = {length, from, to};
      }
    }
    const {length, from, to} = best;
    return length ? length + common(a.slice(0, from), b.slice(0, to)) + common(a.slice(from + length), b.slice(to + length)) : 0;
  };
  return 2 * common(one, other) / (one.length + other.length);
}

function near(name, names) {
  const found = names.filter(it => it).map(it => ({it, like: likeness(String(it), String(name).slice(0, 40))}));
  // (of those that are as like, the last in the order of the letters, as Python's difflib has it)
  const best = found.sort((one, other) => other.like - one.like || (one.it < other.it ? 1 : -1))[0];
  return best?.like >= 0.6 ? `; did you mean \`${best.it}\`?` : "";
}
