// What tests/library/types.ts needs of node's own types, where they are not installed.
declare class Buffer extends Uint8Array {}
declare module 'stream' {
  export class Transform {
    constructor(options?: object);
    on(event: string | symbol, listener: (...args: any[]) => void): this;
    end(chunk?: string | Uint8Array): this;
  }
}
