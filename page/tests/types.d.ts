// What the scripts of a page use that the types of this compiler do not have.

interface Array<T> {
  findLast(is: (item: T, at: number, all: T[]) => unknown): T | undefined;
  findLastIndex(is: (item: T, at: number, all: T[]) => unknown): number;
}

interface ChildNode {
  data?: string;
}

interface Node {
  data?: string;
  /** Of a row of the lanes: the event that it shows, and whether its content is still missing. */
  item?: any;
  isWaiting?: boolean;
  /** Of a box: what is copied in place of the name in it. */
  copied?: string;
}

declare var trustedTypes: any;
declare var DecompressionStream: any;
