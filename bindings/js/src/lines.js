// The calls as lines. pidtab.d.ts says what each takes.

import { EachCall } from "./calls.js";
import { Instance } from "./instance.js";

/** The methods of the calls, of which none makes a call: each tells its line, as the module writes it. */
export class Lines extends EachCall {
  constructor() {
    super();
    this._instance = new Instance();
  }

  _open() {
    return this._instance;
  }

  _made(instance) {
    return instance.callLine();
  }

  _forked() {}
}
