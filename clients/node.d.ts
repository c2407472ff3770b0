// The part of Node, and of the package ws, that the library and the command-line clients use.

declare const module: { exports: unknown };
declare const process: {
  argv: string[];
  env: Record<string, string | undefined>;
  exitCode?: number;
  exit(status: number): never;
  stdin: unknown;
};
declare const require: { (name: string): any; main: unknown };

declare module "node:readline" {
  interface Lines {
    on(event: "line", listener: (line: string) => void): this;
    on(event: "close", listener: () => void): this;
    close(): void;
  }

  function createInterface(options: { input: unknown }): Lines;
}

declare module "ws" {
  class Socket extends WebSocket {
    constructor(
      url: string,
      protocols: string[],
      options: { auth?: string; maxPayload: number; perMessageDeflate: boolean },
    );
  }

  export = Socket;
}
