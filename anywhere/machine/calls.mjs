// The kernel's calls, by the names and numbers that the machine's module tells.
const names = new Map();

/** Takes the calls as the module tells them: pairs of a number and a name. A machine that is made does so itself. */
export function learn_calls(pairs) {
  for (const [number, name] of pairs) names.set(number, name);
}

export const all_calls = () => [...names.values()];

/** The name of the call of a number; nothing if there is none. */
export const known_call = (number) => names.get(number);
export const call_name = (number) => known_call(number) ?? `call ${number}`;

/** The number of the call of a name; nothing if there is none. */
export const call_number = (name) => [...names].find(([, it]) => it === name)?.[0];
