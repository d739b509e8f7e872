// goi in a page or in Node, over goi.wasm:
//
//     import { load } from "./goi.mjs";
//     const goi = await load();
//     goi.tell("(fun x:nat. x + x) 3"); // { value: 6n, overflow: false, moves: 30 }
//     [...goi.fn("fun x:nat. x + x", 1).each([[1], [2]])].map(it => it.value); // [2n, 4n]
//
// The calls are those of goi.h, and print what it says. What has a fault is thrown as Refused, a number outside its range as RangeError,
// and lack of memory, or of the engine's stack, as Error. Nothing else runs in the caller's thread during a call. No proof covers this
// file: it hands texts and numbers in, and gives back what the module says.

export const BUDGET = 10_000;
const [NO_MEMORY, NO_ROOM, GREATEST] = [6, 4, 2 ** 32 - 1];

/**
 * The program, the schedule or the listing has a fault, and the message tells it, as in Unexpected(0). `kind` is its name, and `place`
 * where it is, or null: a byte of a program, a line or an entry of a file, or the number that a net's fault has.
 */
export class Refused extends Error {
  constructor(told) {
    super(told);
    const [, kind, place] = /(\w+)(?:\((\d+)(?:,\d+)?\))?\)?$/.exec(told);
    this.kind = kind;
    this.place = place === undefined ? null : Number(place);
  }
}

/** The numbers of rows of so many each, one behind the other. */
function valuesOf(rows, takes) {
  const numbers = rows.flatMap(row => [...row].map(BigInt));
  if (rows.some(row => row.length !== takes)) throw new RangeError(`a row has ${takes} numbers`);
  if (numbers.some(it => it < 0n || it >= 2n ** 64n)) throw new RangeError("a number is outside its range");
  return BigUint64Array.from(numbers);
}

async function compiled(source) {
  if (source instanceof WebAssembly.Module) return source;
  if (!(source instanceof URL)) return WebAssembly.compile(source);
  if (source.protocol === "file:" && typeof process === "object") {
    return WebAssembly.compile(await (await import("node:fs/promises")).readFile(source));
  }
  const found = await fetch(source);
  if (!found.ok) throw new Error(`${source}: ${found.status}`);
  return WebAssembly.compile(await found.arrayBuffer());
}

/** The machine of a module: of a URL, of bytes, or of a WebAssembly.Module. It takes `most` bytes of memory at the most. */
export async function load(source = new URL("goi.wasm", import.meta.url), most = 2 ** 30) {
  const module = await compiled(source);
  let exports = null; // of an instance: none at first, and none after a call that was cut off half way

  // Makes a call with so much room for its text, at these rows where it is one of a function. Addresses and sizes are numbers of 64 bits,
  // and 0n is no address.
  function made(name, texts, numbers, room, each) {
    const taken = [];
    const take = size => taken[taken.push(exports.goi_room(BigInt(size))) - 1];
    const bytesAt = (at, size) => new Uint8Array(exports.memory.buffer, Number(at), size);
    const coded = texts.map(it => new TextEncoder().encode(it));
    const given = coded.map(it => [take(it.length), BigInt(it.length)]);
    const [answer, needed, out] = [take(16 * Math.max(each?.rows ?? 1, 1)), take(8), take(room)];
    const values = take(each ? Math.max(each.values.byteLength, 8) : 0);
    let found = { status: NO_MEMORY };
    if (!taken.includes(0n)) {
      coded.forEach((it, k) => bytesAt(given[k][0], it.length).set(it));
      let words = name === "goi_tell" ? [...numbers, answer] : numbers;
      if (each) {
        bytesAt(values, each.values.byteLength).set(new Uint8Array(each.values.buffer));
        words = [numbers[0], values, BigInt(each.values.length), numbers[1], answer, BigInt(each.rows)];
      }
      const status = exports[name](...given.flat(), ...words, out, BigInt(room), needed);
      const view = new DataView(exports.memory.buffer);
      const size = Number(view.getBigUint64(Number(needed), true));
      const answerAt = at => {
        const kind = view.getUint32(at + 12, true);
        return { value: kind === 1 ? view.getBigUint64(at, true) : null, overflow: kind === 2, moves: view.getUint32(at + 8, true) };
      };
      const all = Array.from({ length: each?.rows ?? 1 }, (_, k) => answerAt(Number(answer) + 16 * k));
      const told = each ? all : all[0];
      found = { status, size, told, text: status === NO_ROOM ? "" : new TextDecoder().decode(bytesAt(out, size)) };
    }
    for (const at of taken.reverse()) if (at !== 0n) exports.goi_room_back(at);
    return found;
  }

  function call(name, texts, numbers, each) {
    // (a number that 32 bits don't hold is one that no call takes)
    const held = numbers.map(Number).map(it => (Number.isInteger(it) && it >= 0 && it <= GREATEST ? it : GREATEST));
    let found = { status: NO_ROOM, size: 1 << 20 };
    try {
      exports ??= new WebAssembly.Instance(module).exports;
      exports.goi_room_most(BigInt(most));
      while (found.status === NO_ROOM) found = made(name, texts, held, found.size, each);
    } catch (error) {
      exports = null;
      throw new Error("the call was cut off", { cause: error });
    }
    if (found.status === 1 || found.status === 7) throw new Refused(found.text.replace(/^refused: |\n$/g, ""));
    if (found.status === 2) throw new RangeError("a number is outside its range");
    if (found.status === NO_MEMORY) throw new Error("no memory");
    return each || name === "goi_tell" ? found.told : found.text;
  }

  // The answers of a function at rows of so many numbers.
  function tellEach(text, takes, rows, { budget = BUDGET } = {}) {
    return call("goi_tell_each", [text], [takes, budget], { values: valuesOf(rows, takes), rows: rows.length });
  }

  return {
    tell: (text, { budget = BUDGET, byValue = false } = {}) => call("goi_tell", [text], [budget, byValue]),
    tellEach,
    /** A text of type nat -> .. -> nat that takes so many numbers: at some, and at each of many rows, of which each is an array. */
    fn: (text, takes, { budget = BUDGET } = {}) => {
      tellEach(text, takes, []);
      return {
        at: (...numbers) => tellEach(text, takes, [numbers], { budget })[0],
        *each(rows, most = 1000) {
          let some = [];
          for (const row of rows) {
            if (some.push(row) < most) continue;
            yield* tellEach(text, takes, some, { budget });
            some = [];
          }
          yield* tellEach(text, takes, some, { budget });
        },
      };
    },
    run: (text, { budget = BUDGET, byValue = false, schedule = false } = {}) => call("goi_run", [text], [budget, byValue + 2 * schedule]),
    span: (text, { budget = BUDGET, byValue = false, schedule = false, profile = false } = {}) =>
      call("goi_span", [text], [budget, byValue + 2 * schedule + 4 * profile]),
    steps: (text, { budget = BUDGET, from = 0, most: lines = 1000 } = {}) => call("goi_steps", [text], [budget, from, lines]),
    trace: (text, { budget = BUDGET, byValue = false, from = 0, most: lines = 100_000 } = {}) =>
      call("goi_trace", [text], [budget, byValue, from, lines]),
    runNet: (text, { budget = BUDGET, schedule = false } = {}) => call("goi_run_net", [text], [budget, schedule]),
    check: (text, { term = false } = {}) => call("goi_check", [text], [term]),
    net: text => call("goi_net", [text], []),
    circuit: (text, { cells = 1023, forks = 63 } = {}) => call("goi_circuit", [text], [cells, forks]),
    replay: (text, schedule) => call("goi_replay", [text, schedule], []),
    replayTrace: (text, schedule, { from = 0, most: lines = 100_000 } = {}) => call("goi_replay_trace", [text, schedule], [from, lines]),
    version: () => new WebAssembly.Instance(module).exports.goi_version(),
    versionText: () => call("goi_version_text", [], []).trimEnd(),
  };
}
