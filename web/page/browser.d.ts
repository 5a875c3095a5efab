// What browsers have that the library of an older `tsc` does not name.

declare class DecompressionStream {
  constructor(format: "deflate");
  readonly readable: ReadableStream;
  readonly writable: WritableStream;
}
declare class OffscreenCanvas {
  constructor(width: number, height: number);
  getContext(kind: "2d"): CanvasRenderingContext2D;
}
interface FileHandle {
  readonly kind: "file";
  readonly name: string;
  getFile(): Promise<File>;
}
interface Window {
  showOpenFilePicker(options: { multiple: boolean }): Promise<FileHandle[]>;
}
