// The command `uca` in a page: a WebAssembly module over files that are bytes.
//
//     const uca = await Uca.load(bytes);
//     const done = uca.run(["sort", "table.txt", "data.txt"], { "table.txt": table, "data.txt": data }, "b\na\n");
//     // done.status is 0, and done.text() is "a\nb\n"
//
// A module whose memory has 32-bit addresses has the same calls: addresses are BigInts in both.

const MOST_FILES = 6;
const OUT_OF_MEMORY = 257;
const encoder = new TextEncoder();
const decoder = new TextDecoder();

// What a command wrote: its status, and the bytes of its output, its errors and the file that it made (or undefined).
class Done {
  constructor(status, out, err, kept) {
    Object.assign(this, { status, out, err, kept });
  }

  text() {
    return decoder.decode(this.out);
  }

  // The line of an error, without the line of help after it: the page has sentences of its own.
  message() {
    return decoder.decode(this.err).replace(/\nhelp: [^\n]*\n$/, "\n");
  }
}

// Bytes in the memory of the module. put() makes one of a file that many commands read.
class Room {
  constructor(at, length) {
    Object.assign(this, { at, length });
  }
}

// Texts with a NUL between two of them. A text that has a NUL cannot be an argument, as on a command line.
function list(texts) {
  if (texts.some((text) => text.includes("\0"))) throw new TypeError("an argument has a NUL");
  return encoder.encode(texts.join("\0"));
}

// The name of a file where a command gets none: no bytes would be one empty name.
const NO_FILE = "no file";

export class Uca {
  // The name of the module for this engine: uca32.wasm where it has no memory with 64-bit addresses.
  static module_name() {
    const module_with_wide_memory = Uint8Array.of(0, 97, 115, 109, 1, 0, 0, 0, 5, 3, 1, 4, 1);
    return WebAssembly.validate(module_with_wide_memory) ? "uca.wasm" : "uca32.wasm";
  }

  static async load(bytes) {
    const { instance } = await WebAssembly.instantiate(bytes, {});
    return new Uca(instance.exports);
  }

  constructor(calls) {
    this.calls = calls;
    this.stopped = false;
    this.none = new Room(this.take(16).at, 0);
    this.lengths = this.take(32);
    this.rooms = [1 << 16, 1 << 12, 1 << 12].map((length) => this.take(length));
  }

  take(length) {
    const at = this.calls.page_take(BigInt(length));
    if (at === 0n) throw new RangeError("out of memory");
    return new Room(at, length);
  }

  give_back(room) {
    if (room !== this.none) this.calls.page_give_back(room.at);
  }

  bytes(room, length = room.length) {
    return new Uint8Array(this.calls.memory.buffer, Number(room.at), length);
  }

  // Bytes, or a text as UTF-8, in the memory of the module until give_back().
  put(content) {
    const bytes = typeof content === "string" ? encoder.encode(content) : content;
    if (!bytes || bytes.length === 0) return this.none;
    const room = this.take(bytes.length);
    this.bytes(room).set(bytes);
    return room;
  }

  // Runs a command. `files` has the files by their names, at most six: bytes, a text, or a room of put(). Its status is
  // 4 where memory runs out. Blocks that are given back stay as large as they were, so then take a new module.
  run(arguments_, files = {}, input = "") {
    // After a trap the memory may be half written.
    if (this.stopped) throw new Error("the module stopped in an earlier command");
    const names = Object.keys(files);
    if (names.length > MOST_FILES) throw new TypeError("a command reads at most six files");
    const lists = [list(["uca", ...arguments_]), list(names.length ? names : [NO_FILE])];
    this.stopped = true;
    const lent = [];
    const lend = (content) => {
      if (content instanceof Room) return content;
      lent.push(this.put(content));
      return lent.at(-1);
    };
    const given = [...lists, ...names.map((name) => files[name])].map(lend);
    while (given.length < MOST_FILES + 2) given.push(this.none);
    const done = this.call([...given, lend(input)]);
    lent.forEach((room) => this.give_back(room));
    this.stopped = false;
    return done;
  }

  // Calls the module, and once more with more room where its output had not enough.
  call(given) {
    for (;;) {
      const pairs = [...given, ...this.rooms].flatMap((room) => [room.at, BigInt(room.length)]);
      const status = this.calls.uca_run(...pairs, this.lengths.at);
      if (status === OUT_OF_MEMORY) return new Done(4, new Uint8Array(), encoder.encode("memory\n"), undefined);
      const view = new BigUint64Array(this.calls.memory.buffer, Number(this.lengths.at), 4);
      const [out, err, kept, files] = [...view].map(Number);
      const lengths = [out, err, kept];
      if (this.rooms.every((room, i) => lengths[i] <= room.length)) {
        const parts = this.rooms.map((room, i) => this.bytes(room, lengths[i]).slice());
        return new Done(status, parts[0], parts[1], files ? parts[2] : undefined);
      }
      this.rooms = this.rooms.map((room, i) => (lengths[i] <= room.length ? room : this.larger(room, lengths[i])));
    }
  }

  larger(room, length) {
    this.give_back(room);
    return this.take(length);
  }
}
