// The page takes no text for a script but the addresses of these files of its own.
const NAMES = ["sw.js"];

const policy = self.trustedTypes?.createPolicy("desk", {
  createScriptURL: (name) => {
    if (!NAMES.includes(name)) throw new TypeError("not a script of the desk");
    return new URL(name, location.origin + location.pathname).href;
  },
});

/** The address of one of the desk's scripts, as the browser wants it. */
export function scriptAddress(name) {
  if (policy) return policy.createScriptURL(name);
  return new URL(name, location.origin + location.pathname).href;
}
