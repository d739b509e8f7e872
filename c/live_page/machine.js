// The machine: the calls of goi.h on the module, in a worker of the browser. No proof covers this file: it hands texts and numbers in, and
// gives back what the module put into its memory.

const NO_ROOM = 4;
const NO_MEMORY = 6;
// So much room is given for what a call puts out. Where that is too little, the call says how much it wants, and is made again.
const ROOM = 1 << 24;
// goi_tell also puts out a value, a number of moves and a kind, and goi_tell_each so many of them as there are rows of arguments.
const ANSWER_SIZE = 16;
const NUMBER_SIZE = 8;

// An instance of the module, with so much memory at the most, and the calls on it, one at a time: {status, text} comes of each, and
// {answer} of goi_tell and {answers} of goi_tell_each. A call that throws was cut off, by the browser's stack or by the module's: the instance is then half way through
// it, and must not be called again. `entered` makes of a function of the module the one that is called.
function machineOf(module, most, entered = call => call) {
  const { exports } = new WebAssembly.Instance(module);
  const { memory, goi_room: room, goi_room_back: roomBack } = exports;
  const taken = [];
  exports.goi_room_most(BigInt(most));

  // Addresses and sizes are numbers of 64 bits. 0n is no address.
  const take = size => {
    const at = room(BigInt(size));
    if (at !== 0n) taken.push(at);
    return at;
  };
  const bytesAt = (at, size) => new Uint8Array(memory.buffer, Number(at), size);
  const numbersAt = (at, size) => new DataView(memory.buffer, Number(at), size);

  // The texts' addresses and sizes, in the order of the call's parameters; null where there is no memory for them.
  const handIn = texts => {
    const given = [];
    for (const text of texts) {
      const bytes = new TextEncoder().encode(text);
      const at = take(bytes.length);
      if (at === 0n) return null;
      bytesAt(at, bytes.length).set(bytes);
      given.push(at, BigInt(bytes.length));
    }
    return given;
  };

  const answerAt = at => {
    const view = numbersAt(at, ANSWER_SIZE);
    return { value: String(view.getBigUint64(0, true)), moves: view.getUint32(8, true), kind: view.getUint32(12, true) };
  };

  // What stands between the texts and the room for a text: the numbers, and of the two calls that answer in numbers where they answer.
  const between = (name, numbers) => {
    if (name === "goi_tell") return { words: [...numbers, take(ANSWER_SIZE)], count: 1 };
    if (name !== "goi_tell_each") return { words: numbers, count: 0 };
    const { each, values, budget } = numbers;
    const count = values.length / each;
    const [at, answers] = [take(NUMBER_SIZE * values.length), take(ANSWER_SIZE * count)];
    if (at !== 0n) values.forEach((it, k) => numbersAt(at, NUMBER_SIZE * values.length).setBigUint64(NUMBER_SIZE * k, BigInt(it), true));
    return { words: [each, at, BigInt(values.length), budget, answers, BigInt(count)], count, answers };
  };

  const made = async (name, texts, numbers, size) => {
    const given = handIn(texts);
    const needed = take(8);
    const { words, count, answers = words.at(-1) } = between(name, numbers);
    const out = take(size);
    if (given === null || [needed, out, ...words].includes(0n)) return { status: NO_MEMORY, text: "" };
    const status = await entered(exports[name])(...given, ...words, out, BigInt(size), needed) >>> 0;
    const length = Number(numbersAt(needed, 8).getBigUint64(0, true));
    if (status === NO_ROOM) return { status, length };
    const found = { status, text: new TextDecoder().decode(bytesAt(out, length)) };
    if (name === "goi_tell") found.answer = answerAt(answers);
    if (name === "goi_tell_each") found.answers = Array.from({ length: count }, (_, k) => answerAt(answers + BigInt(ANSWER_SIZE * k)));
    return found;
  };

  return {
    // As goi.h has them: the texts, then the numbers and flags.
    async call(name, texts, numbers, size = ROOM) {
      let found = { status: NO_ROOM, length: size };
      while (found.status === NO_ROOM) {
        found = await made(name, texts, numbers, found.length);
        while (taken.length > 0) roomBack(taken.pop());
      }
      return found;
    },
    size: () => memory.buffer.byteLength,
  };
}

// A worker is sent the module first, with the most memory that it may take, and then one call after the other.
if (typeof WorkerGlobalScope !== "undefined") {
  let given = null;
  let machine = null;

  // A call that was cut off is made once more, by a new instance, where the browser has a larger stack for it: it gives one to a call that
  // may wait for a promise. Nothing is waited for here.
  const answered = async asked => {
    try {
      machine ??= machineOf(given.module, given.most);
      return { ...await machine.call(...asked), size: machine.size() };
    } catch (error) {
      machine = null;
      if (typeof WebAssembly.promising !== "function") return { cut: String(error) };
    }
    const another = machineOf(given.module, given.most, WebAssembly.promising);
    return { ...await another.call(...asked), size: another.size() };
  };

  onmessage = async ({ data }) => {
    if (data.module) {
      given = data;
      return;
    }
    const [call, ...asked] = data;
    const began = performance.now();
    const found = await answered(asked).catch(error => ({ cut: String(error) }));
    postMessage([call, { ...found, milliseconds: performance.now() - began }]);
  };
}
