// Types of the pages themselves: what their parts take.

import type * as Messages from "./messages";

type KeyOf<Union> = Union extends unknown ? keyof Union : never;
type FieldOf<Union, Key extends PropertyKey> = Union extends unknown ? (Key extends keyof Union ? Union[Key] : never) : never;
type Without<Union, Key extends PropertyKey> = Union extends unknown ? Omit<Union, Key> : never;

type Always = "pc" | "x" | "vtype" | "vl" | "vstart" | "vxrm" | "vxsat" | "breaks" | "policy" | "v" | "code" | "operands" | "memory";

/** A state with a machine. */
export type MachineState = Messages.State & Required<Pick<Messages.State, Always>>;

/** A source: its text, and the number of its language. */
export interface SourceText {
  text: string;
  language: number;
}

/** A source in the editor, and the exercise that it belongs to; "" for none. */
export type UnsavedSource = SourceText & { exercise: string };

/** A request without the number that the connection gives it. */
export type Request = Without<Messages.StudentRequest | Messages.TeacherRequest, "id">;

/** A request with the source in an editor, without that source. */
export type SourceAction = Without<Messages.SourceRequest | Messages.CaseRequest | Messages.ListingsRequest, "id" | keyof SourceText>;

/** A request to run or step, without the source that is built first. */
export type RunAction = Without<Messages.RunRequest | Messages.StepRequest, "id" | "number" | keyof SourceText>;

/** A request to each machine, without the machine. */
export type MachineAction = Without<Messages.ClockRequest | Messages.RightsRequest, "id" | "machine">;

/** The fields of all messages, each of which has some of them. */
export type Message = Pick<Messages.Message, "kind"> & { [Key in KeyOf<Messages.Message>]?: FieldOf<Messages.Message, Key> };

/** The way to the server, or to the lab in the page. */
export interface Connection {
  readonly isReady: boolean;
  /** Whether the lab in the page starts, which takes seconds. */
  readonly isStarting?: boolean;
  /** Requests without an answer yet. */
  readonly pending: { readonly size: number };
  /** Seconds that the server's clock is ahead of this one. */
  readonly ahead: number;
  /** The answer to a request; null without one, which is then reported. */
  ask(request: Request): Promise<Message | null>;
  /** Saves a file of the server's as a file of a name; whether it has it. */
  download(place: string, name: string): Promise<boolean>;
  /** The exercise that the page's address names, once; "" without one. Only the playground has such addresses. */
  takeWanted?(): string;
  /** Keeps a typed source that may not be saved yet, before the page is closed. Only the playground saves sources itself. */
  keepUnsaved?(source: UnsavedSource): void;
}

/** The owner of a connection, which reports to it. */
export interface Listener {
  /** Receives each message. */
  told(message: Message): void;
  /** Receives a sentence while the server is gone, or on lost requests; "" afterwards. */
  gone(words: string): void;
  /** Receives why the connection ended for good. */
  ended(words: string): void;
}

export type View = Messages.StudentView & Messages.TeacherView & Messages.WallView;

/** A page of a role. */
export interface RolePage {
  show(view: View, logs: Record<string, string[]>, isAnew: boolean): void;
  /** Shows whether the server can be reached. */
  showConnection?(): void;
}
