// Days and moments as ISO 8601 writes them in full, and RFC 3339 too. What has no offset is another moment on each
// host, and `3/4/2026` is two days: so neither is taken.

const MINUTE = 60 * 1000; // milliseconds
export const DAY = 24 * 60 * MINUTE;
export const MOST_DAYS = 9999; // that anything may be late
/** What a moment is to look like, for messages. */
export const MOMENT_FORM = "a time as 2027-04-12T23:59:00+02:00, or with Z in place of +02:00";

const OF_DAY = "(\\d{4})-(\\d\\d)-(\\d\\d)", HOURS = "([01]\\d|2[0-3])", SIXTY = "[0-5]\\d";
const ONE_DAY = new RegExp(`^${OF_DAY}$`);
const MOMENT = new RegExp(
  `^${OF_DAY}T${HOURS}:(${SIXTY})(?::(${SIXTY}(?:\\.\\d+)?))?(?:Z|([+-])${HOURS}:(${SIXTY}))$`,
);

/** When a day begins in Greenwich, in milliseconds; null if no calendar has it. */
function start_of(year, month, day) {
  const start = new Date(Date.UTC(Number(year), Number(month) - 1, Number(day)));
  return start.toISOString().startsWith(`${year}-${month}-${day}T`) ? start.getTime() : null;
}

/** Whether a text is a day of the calendar, as 2027-04-12. */
export function is_day(text) {
  const [, ...parts] = ONE_DAY.exec(text) ?? [];
  return parts.length > 0 && start_of(...parts) !== null;
}

/** The moment that a text says, in milliseconds; null if it says none. */
export function moment_of(text) {
  const [, year, month, day, hours, minutes, seconds = 0, sign = "+", ahead = 0, more = 0] = MOMENT.exec(text) ?? [];
  const start = year === undefined ? null : start_of(year, month, day);
  if (start === null) return null;
  const offset = (Number(ahead) * 60 + Number(more)) * (sign === "+" ? 1 : -1);
  return start + (Number(hours) * 60 + Number(minutes) - offset) * MINUTE + Number(seconds) * 1000;
}
