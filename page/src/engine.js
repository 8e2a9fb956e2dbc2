// The proved program as a WebAssembly module: arguments and bytes in, bytes and a status out.

// Base64 of gzip, as bytes.
export async function unpacked(text) {
  const packed = Uint8Array.from(atob(text), letter => letter.charCodeAt(0));
  const stream = new Blob([packed]).stream().pipeThrough(new DecompressionStream('gzip'));
  return new Uint8Array(await new Response(stream).arrayBuffer());
}

// One instance that is run again and again: before each run its memory is set back to what it was at first. After a
// trap the instance is thrown away.
export class Engine {
  constructor(module) {
    this.module = module;
    this.instance = null;
  }

  fresh() {
    this.instance = new WebAssembly.Instance(this.module, {host: this.host()});
    this.first = this.bytes().slice();
  }

  bytes() {
    return new Uint8Array(this.instance.exports.memory.buffer);
  }

  // What the program asks of its C library: standard input, standard output, and its arguments. Addresses come as 64-bit numbers.
  host() {
    return {
      read: (file, to, room) => {
        const part = this.given.subarray(this.at, this.at + Number(room));
        this.bytes().set(part, Number(to));
        this.at += part.length;
        return BigInt(part.length);
      },
      write: (file, from, count) => {
        this.put.push(this.bytes().slice(Number(from), Number(from) + Number(count)));
        return count;
      },
      arg: (number, to, room) => {
        if (BigInt.asIntN(64, number) === -1n) return BigInt(this.words.length);
        const word = this.words[Number(number)];
        if (!word) return -1n;
        if (word.length > Number(room)) return -2n;
        this.bytes().set(word, Number(to));
        return BigInt(word.length);
      },
    };
  }

  answer(words, text) {
    if (!this.instance) this.fresh();
    const memory = this.bytes();
    memory.set(this.first);
    memory.fill(0, this.first.length);
    const encoder = new TextEncoder();
    this.words = ['pmem', ...words].map(word => encoder.encode(word));
    this.given = encoder.encode(text);
    this.at = 0;
    this.put = [];
    let status;
    try {
      status = this.instance.exports.run_main();
    } catch (fault) {
      this.instance = null;
      throw fault;
    }
    const whole = new Uint8Array(this.put.reduce((sum, part) => sum + part.length, 0));
    let end = 0;
    for (const part of this.put) {
      whole.set(part, end);
      end += part.length;
    }
    this.put = [];
    return {status, text: new TextDecoder().decode(whole)};
  }
}
