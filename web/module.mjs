// Runs lspcheck, compiled to WebAssembly: the host of system.c.
//
// What the program asks of its host is in `system`, whose functions take and return JavaScript's
// own values, and fail with the errors of Node, which have a `code`:
//
//   open(path)          opens a file for reading; returns its number
//   close(fd)
//   read(fd, bytes)     fills the bytes from the start; returns how many there were, 0 at the end
//   write(fd, bytes)    returns how many it took
//   size(fd)            how many bytes a file has, or 0
//   isTerminal(fd)
//   clock()             nanoseconds, as a BigInt

// Linux's numbers of errors, which the program's messages name.
const NUMBERS = {
  EPERM: 1, ENOENT: 2, EINTR: 4, EIO: 5, ENXIO: 6, EBADF: 9, EAGAIN: 11, ENOMEM: 12, EACCES: 13,
  EBUSY: 16, ENODEV: 19, ENOTDIR: 20, EISDIR: 21, EINVAL: 22, ENFILE: 23, EMFILE: 24, ETXTBSY: 26,
  EFBIG: 27, ENOSPC: 28, ESPIPE: 29, EROFS: 30, EPIPE: 32, ENAMETOOLONG: 36, ELOOP: 40,
  ENOTSUP: 95, ETIMEDOUT: 110, EDQUOT: 122,
};

// The most bytes that are read or written by one call.
const MOST = 1 << 20;

/** How the program ended itself. */
class Ended extends Error {
  constructor(status) {
    super(`ended with status ${status}`);
    this.status = status;
  }
}

/** What the program is answered for an error of its host: a negative number. */
function failure(error) {
  if (NUMBERS[error.code]) {
    return -NUMBERS[error.code];
  }
  if (error.errno !== undefined) {
    return -NUMBERS.EIO;
  }
  throw error;
}

/**
 * Runs the program with these words, texts or the bytes of texts, and returns its status. `module`
 * is a WebAssembly.Module, and `bound` the most bytes of memory that it may have.
 */
export function run(module, words, system, bound) {
  const encoded = (it) => (typeof it === "string" ? new TextEncoder().encode(it) : it);
  const given = ["lspcheck", ...words].map(encoded);
  const decoder = new TextDecoder("utf-8", { fatal: true, ignoreBOM: true });
  const bytes = (at, size) =>
    new Uint8Array(exports.memory.buffer, Number(at), Math.min(Number(size), MOST));
  const answer = (call) => {
    try {
      return BigInt(call() ?? 0);
    } catch (error) {
      return BigInt(failure(error));
    }
  };
  const host = {
    arg_count: () => BigInt(given.length),
    arg(number, at, size) {
      const word = given[Number(number)];
      if (word === undefined) {
        return -1n;
      }
      const fits = word.subarray(0, Number(size));
      new Uint8Array(exports.memory.buffer, Number(at), fits.length).set(fits);
      return fits.length === word.length ? BigInt(word.length) : -2n;
    },
    open: (at, size) => answer(() => system.open(decoder.decode(bytes(at, size)))),
    close: (fd) => answer(() => system.close(fd)),
    read: (fd, at, size) => answer(() => system.read(fd, bytes(at, size))),
    write: (fd, at, size) => answer(() => system.write(fd, bytes(at, size))),
    size: (fd) => answer(() => system.size(fd)),
    is_terminal: (fd) => (system.isTerminal(fd) ? 1 : 0),
    clock: () => answer(() => system.clock()),
    exit(status) {
      throw new Ended(status);
    },
  };
  const { exports } = new WebAssembly.Instance(module, { host });
  if (bound !== undefined) {
    exports.limit_memory(BigInt(bound));
  }
  try {
    return exports.main(0, 0n);
  } catch (error) {
    if (error instanceof Ended) {
      return error.status;
    }
    throw error;
  }
}
