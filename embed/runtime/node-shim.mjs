// Gives Node what scripts of varukoni-js find in their window, for scripts with ports alone:
//
//     node --import embed/runtime/node-shim.mjs FILE.js
//
// A port of Node hears of its own close too, and has no `onclose`: here its peer alone hears of it.
const { close } = MessagePort.prototype;
const closed = new WeakSet();

const define = (object, name, members) =>
  Object.defineProperty(object, name, { configurable: true, ...members });

define(MessagePort.prototype, 'close', {
  writable: true,
  value() {
    closed.add(this);
    return close.call(this);
  },
});
define(MessagePort.prototype, 'onclose', {
  set(listener) {
    this.addEventListener('close', (event) => {
      if (!closed.has(this)) listener.call(this, event);
    });
  },
});
for (const name of ['self', 'window'])
  define(globalThis, name, { writable: true, value: globalThis });
define(globalThis, 'close', { writable: true, value: () => process.exit() });
