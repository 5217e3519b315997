/** What a call answers: a status (those of the program, and 9 for a session that was closed), and the bytes that the program writes. */
export interface Answer {
  readonly status: number;
  readonly output: Uint8Array;
}

/** A session that is answered line by line, as the program does it over a pipe. */
export interface Session {
  /** Answers the next line of an input. The text has no line feed. After a status other than 0 no line is answered. */
  line(text: string | Uint8Array): Answer;
  /** What the program writes if the input ends here: nothing after the line `end`, else an error line. */
  end(): Answer;
  /** Frees the session's memory. */
  close(): void;
}

/** The machine. Each run and each session has an instance of the module, and so a memory, of its own. */
export interface Machine {
  /** Runs the program lispm with these arguments on an input: `run(["replay"], text)`, `run(["why", "--object", "3"], text)`. */
  run(given: readonly string[], input?: string | Uint8Array): Answer;
  /** Runs the program lispm_inside: the replies, and after them the machine. `inside(["--fail", "3"], text)`. */
  inside(given: readonly string[], input?: string | Uint8Array): Answer;
  /** Opens a session. */
  session(): Session;
  /** The version of the machine: `1.2.3`. */
  version(): string;
}

/**
 * Compiles the module. Without `bytes` it reads lispm.wasm, from the folder of machine.mjs or, in a page, from its address.
 * A page that is opened from a disk passes the bytes. Some browsers let only a worker run a large module, and not a page.
 */
export function load(bytes?: BufferSource | WebAssembly.Module): Promise<Machine>;
