// Asks the modules of what needs no heap, as a page does: a countdown, an animator, and the table of what a loop does next. The first word
// is their folder. Structs lie in the module's memory as the headers say; an answer's place is the first argument. Exits with 0 where each
// answer is right.
import { readFileSync } from "node:fs";

async function module(name) {
  const { instance } = await WebAssembly.instantiate(readFileSync(`${process.argv[2]}/${name}.wasm`), {});
  const { memory, __heap_base: base, ...calls } = instance.exports;
  const at = Number(base.value);
  return { calls, answer: BigInt(at), it: BigInt(at + 64), view: new DataView(memory.buffer, at) };
}

const milliseconds = (n) => 1000000n * BigInt(n);
let answers = 0;
function check(...pairs) {
  for (const [is, wanted] of pairs) if (is !== wanted) throw new Error(`answer ${answers}: ${is}, and not ${wanted}`);
  answers++;
}

const countdown = await module("countdown_c");
countdown.view.setBigUint64(64, 100n, true);
countdown.view.setBigUint64(72, 30n, true);
for (const [time, kind, left] of [[7, 0, 100n], [36, 1, 0n], [37, 0, 70n], [107, 2, 0n], [108, 3, 0n]]) {
  countdown.calls.mloop_core_countdown_frame(countdown.answer, countdown.it, milliseconds(time));
  check([countdown.view.getUint32(8, true), kind], [countdown.view.getBigUint64(0, true), left]);
}

const animator = await module("animator_c");
animator.view.setBigUint64(64 + 8, 100n, true); // the duration, then two keys: 10 at 0, 110 at 1000
animator.view.setUint32(64 + 20, 2, true);
[0, 10, 1000, 110].forEach((word, i) => animator.view.setUint32(64 + 24 + 4 * i, word, true));
for (const [time, kind, value] of [[7, 0, 10], [57, 0, 60], [107, 1, 110], [108, 2, 0]]) {
  animator.calls.mloop_core_animator_frame(animator.answer, animator.it, milliseconds(time));
  check([animator.view.getUint32(4, true), kind], [animator.view.getUint32(0, true), value]);
}

const next = await module("loop_next_c");
next.view.setBigUint64(64, milliseconds(5), true);
next.view.setBigUint64(72, 9n, true);
for (const [look, kind, until] of [[0, 4, 0n], [18, 7, milliseconds(9)], [16, 5, 0n], [20, 8, 0n]]) {
  next.view.setUint32(64 + 24, look, true);
  next.calls.mloop_core_next(next.answer, next.it);
  check([next.view.getUint32(8, true), kind], [next.view.getBigUint64(0, true), until], [next.view.getUint32(64 + 24, true), 0]);
}
check([next.calls.mloop_core_milliseconds(milliseconds(9), milliseconds(5) + 1n), 4]);
check([next.calls.mloop_core_milliseconds(2n ** 64n - 1n, 5n), -1]);
console.log(`${answers} answers of three modules are right`);
