// One core instance calls another through the library. This is what a host over an engine needs, and host.mjs uses it.

// The greatest size of a memory: examples/run.sh links each module with it. No call asks for more bytes.
export const GREATEST_MEMORY = 1048576;

// The bytes of an instance's memory. A view is good only up to the next call into the instance, whose memory may grow.
export const bytesOf = (instance) => new Uint8Array(instance.exports.memory.buffer);

// Runs code of a component. If the engine traps in it, the result is that of `stopped`.
function ran(core, values, stopped) {
  try {
    return core(...values);
  } catch (error) {
    if (error instanceof WebAssembly.RuntimeError) return stopped();
    throw error;
  }
}

// Ends a call as Link::call does if the body or its post-return stops.
const stop = (step) => () => {
  throw new Error(`trap K7 body in ${step}`);
};

// Has an instance's own allocator grant the blocks, one after another, up to the first for which it traps.
export function granted(instance, asked) {
  const blocks = [];
  for (const { align, size } of asked) {
    const at = ran(instance.exports.cabi_realloc, [0, 0, align, size], () => null);
    if (at === null) break;
    blocks.push({ align, size, at: at >>> 0 });
  }
  return blocks;
}

export class Link {
  grant = granted;

  constructor(library, opened, callee) {
    Object.assign(this, { library, opened, callee });
  }

  // Makes the caller's instance. What `imports` lacks is a function of the callee.
  connect(module, imports) {
    for (const { module: iface, name } of WebAssembly.Module.imports(module)) {
      imports[iface] ??= {};
      imports[iface][name] ??= this.lowered(iface, name);
    }
    this.caller = new WebAssembly.Instance(module, imports);
  }

  // A function of the callee as the caller imports it. What the library refuses, and what traps, is thrown through the caller.
  lowered(iface, name) {
    const { library, opened, callee } = this;
    const func = library.find(opened, iface, name);
    const body = callee.exports[`${iface}#${name}`];
    const post = callee.exports[`cabi_post_${iface}#${name}`];
    return (...flats) => {
      const { caller } = this;
      const asked = library.enterRequests(opened, func, flats, bytesOf(caller), GREATEST_MEMORY);
      const blocks = this.grant(callee, asked);
      const handed = library.enter(opened, func, flats, bytesOf(caller), bytesOf(callee), blocks);
      const answer = [ran(body, handed, stop("body"))].filter((value) => value !== undefined);

      const wanted = library.leaveRequests(opened, func, answer, bytesOf(callee), GREATEST_MEMORY);
      const places = this.grant(caller, wanted);
      const [result] = library.leave(opened, func, flats, answer, bytesOf(callee), bytesOf(caller), places);
      if (post) ran(post, answer, stop("post"));
      return result;
    };
  }
}
