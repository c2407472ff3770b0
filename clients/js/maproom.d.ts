// The types of maproom.js, which describes each member.

export as namespace maproom;

interface Tagged {
  el: string;
  tags: Tags;
}

export interface NodeElement extends Tagged {
  lat: string;
  lon: string;
  nodes?: undefined;
  members?: undefined;
}

export interface WayElement extends Tagged {
  nodes: number[];
  lat?: undefined;
  lon?: undefined;
  members?: undefined;
}

export interface RelationElement extends Tagged {
  members: [string, string][];
  lat?: undefined;
  lon?: undefined;
  nodes?: undefined;
}

export type Element = NodeElement | WayElement | RelationElement;

export interface Row {
  el: string;
  before: Element | null;
  after: Element | null;
}

export type Degrees = number | string;
export type Tags = Record<string, string>;
export type Members = Iterable<readonly [string, string]>;
export type Message = { do: string } & Record<string, unknown>;

export interface AskOptions {
  signal?: AbortSignal;
  timeout?: number | null;
}

export interface ChangeOptions extends AskOptions {
  since?: number;
}

export interface ConnectOptions {
  room: string;
  name: string;
  openTimeout?: number | null;
  timeout?: number | null;
  heartbeat?: number;
  signal?: AbortSignal;
}

export type Refusal = { why: string } & Record<string, any>;

export type State = "connecting" | "open" | "closed";

export interface ChangeEvent extends Event {
  readonly seq: number;
  readonly by: string;
  readonly rows: Row[];
}

export interface ResetEvent extends Event {
  readonly seq: number;
  readonly restarted: boolean | null;
  readonly rows: Row[];
}

export interface StateEvent extends Event {
  readonly state: State;
}

export interface RoomErrorEvent extends Event {
  readonly error: unknown;
}

export interface RoomEvents {
  change: ChangeEvent;
  reset: ResetEvent;
  state: StateEvent;
  error: RoomErrorEvent;
}

export function connect(url: string, options: ConnectOptions): Promise<Room>;

export class Room extends EventTarget {
  private constructor(url: string, options: ConnectOptions);
  static connect(url: string, options: ConnectOptions): Promise<Room>;
  readonly url: string;
  readonly room: string;
  readonly name: string;
  readonly elements: ReadonlyMap<string, Element>;
  readonly authors: ReadonlyMap<number, string>;
  readonly seq: number;
  readonly pending: number;
  readonly state: State;
  addEventListener<Type extends keyof RoomEvents>(
    type: Type,
    listener: (event: RoomEvents[Type]) => unknown,
    options?: boolean | AddEventListenerOptions,
  ): void;
  addEventListener(
    type: string,
    listener: EventListenerOrEventListenerObject | null,
    options?: boolean | AddEventListenerOptions,
  ): void;
  removeEventListener<Type extends keyof RoomEvents>(
    type: Type,
    listener: (event: RoomEvents[Type]) => unknown,
    options?: boolean | EventListenerOptions,
  ): void;
  removeEventListener(
    type: string,
    listener: EventListenerOrEventListenerObject | null,
    options?: boolean | EventListenerOptions,
  ): void;
  close(): void;
  ask(message: Message, options?: AskOptions): Promise<Record<string, unknown>>;
  createNode(lat: Degrees, lon: Degrees, tags?: Tags, options?: ChangeOptions & { el?: string }): Promise<string>;
  createWay(nodes: Iterable<number | string>, tags?: Tags, options?: ChangeOptions & { el?: string }): Promise<string>;
  createRelation(members: Members, tags?: Tags, options?: ChangeOptions & { el?: string }): Promise<string>;
  retag(el: string, tags: Record<string, string | null>, options?: ChangeOptions): Promise<number>;
  move(els: string | readonly string[], dlat: Degrees, dlon: Degrees, options?: ChangeOptions): Promise<number>;
  reverse(el: string, options?: ChangeOptions): Promise<number>;
  setNodes(el: string, nodes: Iterable<number | string>, options?: ChangeOptions): Promise<number>;
  setMembers(el: string, members: Members, options?: ChangeOptions): Promise<number>;
  delete(el: string, options?: ChangeOptions): Promise<number>;
  purge(el: string, options?: ChangeOptions): Promise<number>;
  split(el: string, at: number, options?: ChangeOptions & { into?: string }): Promise<string>;
  join(el: string, other: string, options?: ChangeOptions): Promise<number>;
  merge(el: string, other: string, options?: ChangeOptions): Promise<number>;
  unglue(el: string, at: number, options?: ChangeOptions & { into?: string }): Promise<string>;
  group(steps: Iterable<Message>, options?: ChangeOptions): Promise<number>;
  newName(kind: "n" | "w" | "r"): string;
  undo(seq?: number, options?: AskOptions): Promise<{ seq: number; undid?: number }>;
  undoLastPossible(options?: AskOptions): Promise<{ seq: number; undid: number } | null>;
  redo(options?: AskOptions): Promise<{ seq: number; redid?: number }>;
  get(el: string, options?: AskOptions): Promise<Element>;
  map(options?: AskOptions): Promise<{ map: Element[]; seq: number }>;
  undos(options?: AskOptions): Promise<{ undos: number[]; redo: number[] }>;
}

export class MaproomError extends Error {
  constructor(why: string, message: string, options?: { cause?: unknown });
  readonly why: string;
}

export class ConnectionFailed extends MaproomError {
  constructor(message: string, options?: { cause?: unknown });
}

export class Closed extends MaproomError {
  constructor(isSent?: boolean);
  readonly isSent: boolean;
}

export class Unknown extends MaproomError {
  constructor(restarted?: boolean);
  readonly restarted: boolean;
}

export class NotSent extends MaproomError {
  constructor(restarted?: boolean);
  readonly restarted: boolean;
}

export class NoAnswer extends MaproomError {
  constructor(milliseconds: number);
}

export class Refused extends MaproomError {
  constructor(no: Refusal, author?: string | null);
  readonly no: Refusal;
  readonly author: string | null;
  readonly action: number | null;
  readonly element: string | null;
  readonly entry: number | null;
}

export class Changed extends Refused {
  readonly element: string;
  readonly entry: number;
}

export class WrongName extends Refused {
  readonly author: string;
}

export class NoName extends Refused {}

export const actions: {
  createNode(el: string, lat: Degrees, lon: Degrees, tags?: Tags): Message;
  createWay(el: string, nodes: Iterable<number | string>, tags?: Tags): Message;
  createRelation(el: string, members: Members, tags?: Tags): Message;
  retag(el: string, tags: Record<string, string | null>): Message;
  move(els: string | readonly string[], dlat: Degrees, dlon: Degrees): Message;
  reverse(el: string): Message;
  setNodes(el: string, nodes: Iterable<number | string>): Message;
  setMembers(el: string, members: Members): Message;
  delete(el: string): Message;
  purge(el: string): Message;
  split(el: string, at: number, into: string): Message;
  join(el: string, other: string): Message;
  merge(el: string, other: string): Message;
  unglue(el: string, at: number, into: string): Message;
  group(steps: Iterable<Message>): Message;
  undo(seq?: number): Message;
  redo(): Message;
  get(el: string): Message;
  map(): Message;
  undos(): Message;
};

// The core, for programs that have a connection of their own.
export class OutOfStep extends Error {}

export class HelloRefused extends Error {
  constructor(no: Refusal);
  readonly no: Refusal;
}

export type Answer = { ok: Record<string, any>; no?: undefined } | { no: Refusal; ok?: undefined };
export type CoreEvent =
  | { seq: number; by: string; rows: Row[] }
  | { seq: number; reset: true; restarted: boolean | null; rows: Row[] };

export interface Asked {
  readonly id: number;
  readonly text: string;
}

export class Core {
  constructor(room: string, name: string, firstId?: number, window?: number);
  readonly elements: Map<string, Element>;
  readonly seq: number | null;
  readonly authors: Map<number, string>;
  events: CoreEvent[];
  isHere(): boolean;
  begin(): string[];
  end(): void;
  close(no: Refusal): void;
  pending(): number;
  add(message: Message, done?: (answer: Answer) => void): Asked;
  ask(message: Message, done?: (answer: Answer) => void): string[];
  giveUp(asked: Asked): void;
  probe(): string[];
  sendMore(): string[];
  newName(kind: "n" | "w" | "r"): string;
  take(text: string): string[];
}

export function errorOf(no: Refusal, author?: string): MaproomError;
export function shortWords(error: Error): string;
