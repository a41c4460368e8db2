// What the check of the JavaScript's types knows of Node and of two clients, whose types tsc does not have: which modules
// and names there are, and what an emitter has.
declare module 'child_process';
declare module 'crypto';
declare module 'fs';
declare module 'module';
declare module 'net';
declare module 'os';
declare module 'path';
declare module 'util';
declare module 'fb-watchman';
declare module 'sane';
declare module 'events' {
  class EventEmitter {
    emit(event: string, ...values: any[]): boolean;
    listenerCount(event: string): number;
    off(event: string, listener: Function): this;
    on(event: string, listener: Function): this;
    once(event: string, listener: Function): this;
    removeAllListeners(event?: string): this;
    removeListener(event: string, listener: Function): this;
    setMaxListeners(count: number): this;
  }
  export { EventEmitter };
}
declare const __dirname: string;
declare const Buffer: any;
declare const console: any;
declare const module: any;
declare const process: any;
declare const require: any;
declare function setImmediate(work: Function): any;
declare function setTimeout(work: Function, milliseconds?: number): any;
declare function clearTimeout(timer: any): void;
