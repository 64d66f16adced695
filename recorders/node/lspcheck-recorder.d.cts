// The types of lspcheck-recorder.cjs.

import type { ChildProcess } from "child_process";

/** A log in format 2. */
export interface Log {
  /** The path of the file. */
  readonly path: string;
  /** Records the client's whole text of a document at the version that it keeps for it. */
  snapshot(uri: string, version: number, text: string): void;
}

/** Options of `lspcheck`, such as "--complete", and whether snapshots must have been compared. */
export type Option = string | { compared?: boolean };

/** Records all that passes through the pipes of a child process from now on. */
export function record(child: ChildProcess, path: string): Log;

/** Throws what `lspcheck explain` writes about a log, unless its verdict is yes; returns it. */
export function assertClean(log: Log | string, ...options: Option[]): string;

/** Whether there is a program to check logs with. */
export function isInstalled(): boolean;

/** The version of lspcheck that the module belongs to. */
export const version: string;
