/* The worker of the page: it has the program, and answers one call at a time. The page puts web/arpki.mjs in front of this. */
let loading = null;

/* Tells the page what a long run has written, not more often than ten times a second. */
function telling(id) {
  let waiting = "", last = performance.now();
  return part => {
    waiting += part;
    if (performance.now() - last < 100) return;
    postMessage({ id, part: waiting });
    waiting = "";
    last = performance.now();
  };
}

onmessage = async ({ data: { id, module, words, input } }) => {
  try {
    if (module) loading = loadProgram(module);
    const program = await loading;
    if (!words) return postMessage({ id, told: null });
    const begun = performance.now(), { status, output } = program.run(words, input, telling(id));
    postMessage({ id, told: { status, output: new TextDecoder().decode(output), took: performance.now() - begun } });
  } catch (fault) {
    postMessage({ id, fault: fault.message });
  }
};
