// The jobs of bench/signals.py over Knockout and over Vue 2, libraries of signals for JavaScript:
//   node jobs.js knockout|vue JOB SIZE UPDATES SEED
// prints the microseconds of building, those of an update, and the sum of all numbers that were asked for.
const [library, job, size, updates, first] = process.argv.slice(2).map((it) => (isNaN(it) ? it : Number(it)));

// For each library: an input, a number that follows from others, and how each is set and asked for.
function knockout() {
  const ko = require('knockout');
  return {
    input: () => ko.observable(0),
    derived: (compute) => ko.computed(compute),
    set: (it, value) => it(value),
    get: (it) => it(),
    all: () => {},
  };
}

function vue() {
  const Vue = require('vue');
  Vue.config.productionTip = false;
  Vue.config.devtools = false;
  const computed = [];
  return {
    input: () => Vue.observable({ value: 0 }),
    derived: (compute) => {
      const it = new Vue({ computed: { value: compute } });
      computed.push(it);
      return it;
    },
    set: (it, value) => {
      it.value = value;
    },
    get: (it) => it.value,
    // (a computed number of Vue follows when it is asked for)
    all: () => computed.forEach((it) => it.value),
  };
}

const signals = { knockout, vue }[library]();
const { input, derived, set, get, all } = signals;

// For each job: its inputs, and what is asked for after the input of a place was set.
const jobs = {
  tree: () => {
    const leaves = Array.from({ length: size }, input);
    const sum = (begin, end) => {
      if (end - begin === 1) return leaves[begin];
      const middle = (begin + end) >> 1;
      const left = sum(begin, middle);
      const right = sum(middle, end);
      return derived(() => get(left) + get(right));
    };
    const root = sum(0, size);
    return { inputs: leaves, ask: () => get(root) };
  },
  map: () => {
    const inputs = Array.from({ length: size }, input);
    const images = inputs.map((it) => derived(() => get(it) * 10));
    return { inputs, ask: (at) => get(images[at]) };
  },
  readers: () => {
    const one = input();
    const images = Array.from({ length: size }, () => derived(() => get(one) + 1));
    return {
      inputs: [one],
      ask: () => {
        all();
        return get(images[size - 1]);
      },
    };
  },
};

const now = () => Number(process.hrtime.bigint()) / 1e3;
const begun = now();
const { inputs, ask } = jobs[job]();
all();
const built = now();
let seed = first;
let total = 0;
for (let value = 1; value <= updates; value += 1) {
  seed = (seed * 16807) % 2147483647;
  const at = seed % inputs.length;
  set(inputs[at], value);
  total += ask(at);
}
console.log(`${built - begun} ${(now() - built) / updates} ${total}`);
