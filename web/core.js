// The module's calls. It imports nothing: it works in its own stack and in the bytes that a call is lent, which lie above
// __heap_base. Pointers and counts are 64 bits wide, also in a module made for a memory of 32 bits.

// what a slice of the module is given: bytes to read; room for so many rows; room that comes without a count
const given = (bytes) => ({ bytes, size: bytes.length, counts: [bytes.length] });
const lent = (rows, bytesEach = 1) => ({ bytes: null, size: rows * bytesEach, counts: [rows] });
const bare = (size) => ({ bytes: null, size, counts: [] });

export const FIRST_PAGE = 1 << 20;
const REFUSAL = 24; // no line of a refused pair is longer
const LONGEST_RECORD = 14336;
const LONGEST_WORDS = 512;
const MOST_POINTS = 2048;
const MOST_FACES = 4096;
const MOST_PAIRS = 1000000;

const MODULE_CALLS = ['page_room', 'page_inspect', 'page_record', 'page_near', 'page_frames', 'page_sheet', 'page_words', 'page_refused_words'];

export async function makeCore(moduleBytes) {
  const module = await WebAssembly.compile(moduleBytes);
  const wasm = (await WebAssembly.instantiate(module, {})).exports;
  for (const name of MODULE_CALLS) if (typeof wasm[name] !== 'function') throw new Error(`the module has no ${name}`);
  return coreOf(wasm);
}

export function coreOf(wasm) {
  const memory = wasm.memory;
  const base = Number(wasm.__heap_base.value);
  const room = Number(wasm.page_room());

  function reach(end) {
    const lacking = Math.ceil((end - memory.buffer.byteLength) / 65536);
    if (lacking <= 0) return;
    try {
      memory.grow(BigInt(lacking));
    } catch (error) {
      if (!(error instanceof TypeError)) throw error;
      memory.grow(lacking); // a memory of 32 bits
    }
  }

  // Lays areas one after another, each at a multiple of 16.
  function lay(areas) {
    let end = base;
    const laid = areas.map((area) => {
      const place = Math.ceil(end / 16) * 16;
      end = place + area.size;
      return { ...area, place };
    });
    reach(end);
    const all = new Uint8Array(memory.buffer);
    for (const { bytes, place } of laid) if (bytes) all.set(bytes, place);
    return laid;
  }

  const passed = (laid) => laid.flatMap(({ place, counts }) => [place, ...counts].map(BigInt));

  // Calls with areas of which the first is for the result: a u32 and two u64.
  function call(name, ...areas) {
    const places = lay([bare(24), ...areas]);
    wasm[name](...passed(places));
    const told = new DataView(memory.buffer, places[0].place, 24);
    return {
      code: told.getUint32(0, true),
      first: Number(told.getBigUint64(8, true)),
      second: Number(told.getBigUint64(16, true)),
      front: (area, length) => memory.buffer.slice(places[area + 1].place, places[area + 1].place + length),
    };
  }

  // Calls with a page to print on, which has room for so many refused pairs; where the text is longer than the page, once more
  // with a page that holds it.
  function print(name, lengthOf, areas, page, after, pairs) {
    let size = FIRST_PAGE + REFUSAL * pairs;
    for (;;) {
      const answer = call(name, ...areas, lent(size), ...after);
      const length = lengthOf(answer);
      if (length <= size) return { ...answer, text: textOf(answer.front(page, length)) };
      size = length;
    }
  }

  // Calls for a sentence, by numbers and areas. What the call answers is how long it is.
  function sentence(name, numbers, ...areas) {
    const laid = lay([...areas, lent(LONGEST_WORDS)]);
    const length = Number(wasm[name](...numbers, ...passed(laid)));
    const { place } = laid[laid.length - 1];
    return textOf(memory.buffer.slice(place, place + length));
  }

  const textOf = (buffer) => new TextDecoder().decode(buffer);
  const bytesOf = (buffer) => new Uint8Array(buffer);

  return {
    // what `inspect` prints of a plan, and the pairs that it refused. Code 0: complete, 1: a fault ended the run.
    inspect(sheet, step, pairs) {
      const answer = print('page_inspect', (a) => a.first, [given(sheet), given(step), given(pairs)], 3, [lent(pairs.length)], Math.floor(pairs.length / 4));
      return { code: answer.code, text: answer.text, refused: bytesOf(answer.front(4, answer.second)) };
    },

    // what `record` makes of two frames. Code 0: recorded, 1 and 2: the frame has a fault, 3: they are not of one sheet.
    record(start, end) {
      const answer = call('page_record', given(start), given(end), lent(LONGEST_RECORD), lent(74));
      const line = textOf(answer.front(3, answer.second));
      return { code: answer.code, line, step: answer.code === 0 ? bytesOf(answer.front(2, answer.first)) : null };
    },

    // what `near` makes of a sheet and its step. Code 0: complete, 1: a fault.
    near(sheet, step) {
      const answer = call('page_near', bare(room), given(sheet), given(step), lent(4 * MOST_PAIRS), lent(60));
      const line = textOf(answer.front(4, answer.second));
      return { code: answer.code, line, pairs: answer.code === 0 ? bytesOf(answer.front(3, answer.first)) : null };
    },

    // what `inspect` prints of two frames. Code 0: covered all pairs, 1: refused some, 2: the search has a fault,
    // 3 and 4: the frame has a fault, 5: they are not of one sheet. `pairs` is how many near pairs there are, where that is known;
    // then the refused ones come too.
    frames(start, end, pairs = 0) {
      const answer = print('page_frames', (a) => a.second, [bare(room), given(start), given(end)], 3, [lent(4 * pairs)], pairs);
      const refused = Math.min(answer.first, pairs);
      return { code: answer.code, refused: answer.first, refusedPairs: bytesOf(answer.front(4, 4 * refused)), text: answer.text };
    },

    // the tables of a plan: six coordinates a point, its start and its end; three corners a face. None, and code 1, where the sheet or its step has a fault.
    sheet(sheet, step) {
      const answer = call('page_sheet', given(sheet), given(step), lent(MOST_POINTS, 12), lent(MOST_FACES, 6));
      if (answer.code !== 0) return { code: answer.code, points: new Int16Array(0), faces: new Uint16Array(0) };
      return {
        code: 0,
        points: new Int16Array(answer.front(2, 12 * answer.first)),
        faces: new Uint16Array(answer.front(3, 6 * answer.second)),
      };
    },

    // what a fault says in words. `line` has the bytes of the line of a text that it speaks of, or none.
    words: ({ number, places }, line) => sentence('page_words', [number, ...places], given(line)),

    // what is to be said of so many refused pairs.
    refusedWords: (count) => sentence('page_refused_words', [BigInt(count)]),
  };
}
