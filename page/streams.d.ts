// What browsers of mid-2023 have and TypeScript 4.8 does not know yet.
declare class CompressionStream {
  constructor(form: string);
  readonly readable: ReadableStream<Uint8Array>;
  readonly writable: WritableStream<Uint8Array>;
}
declare class DecompressionStream extends CompressionStream {}
