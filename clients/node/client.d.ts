// The types of wqd-client.

import { EventEmitter } from 'events';

/** A file of a list, with the fields that were asked for. `name` is below the root. */
export interface File {
  name: string;
  exists?: boolean;
  type?: string;
  size?: number;
  mtime_ms?: number;
  [field: string]: unknown;
}

/** A list of a subscription, or the reply to a query. */
export interface Changes {
  clock: string;
  is_fresh_instance: boolean;
  /** Objects; or texts or numbers, if one field alone was asked for. */
  files: (File | string | number)[];
  root?: string;
  subscription?: string;
  unilateral?: true;
  /** The root is watched no more. Such a line has no files. */
  canceled?: boolean;
  version: string;
}

/** A reply. An error has this key alone, beside the version; `ended` says that no server was there. */
export interface Reply {
  error?: string;
  [key: string]: unknown;
}

/** Takes the lists of a subscription. */
export interface Taker {
  take(changes: Changes): void;
}

/** A session with a server, which outlives the server: it connects anew, and starts a server if none runs. */
export class Session extends EventEmitter {
  constructor(sockname: string);
  readonly sockname: string;
  /** Who takes the lists of each subscription, by its name. */
  readonly lists: Map<string, Taker>;
  /** Someone uses the session. One that keeps it keeps the process alive too. */
  acquire(keeps: boolean): void;
  release(keeps: boolean): void;
  /** Sends a command, and gives its reply, which may be an error. */
  ask(...command: unknown[]): Promise<Reply>;
  isUp(): boolean;
  /** Resolves when it is connected, or could not be at once. */
  whenTried(): Promise<void>;
  on(event: 'up' | 'down', heard: () => void): this;
  on(event: 'fault', heard: (fault: Error) => void): this;
}

/** The socket at which `wq` looks for a server. */
export function defaultSockname(environment?: Record<string, string | undefined>): string;
