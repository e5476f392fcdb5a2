// Numbers as a person reads them.

export const hex = (value) => "0x" + BigInt(value).toString(16);

/** A number as a C programmer would read it: small ones, negative ones too, in decimal. */
export function number(value) {
  const signed = BigInt.asIntN(64, value);
  return signed >= -4096n && signed < 65536n ? String(signed) : hex(value);
}

const in_groups = new Intl.NumberFormat("en");
export const grouped = (count) => in_groups.format(Math.round(count));

const KIB = 1024, MIB = 1024 * 1024;
const with_a_digit = (value) => String(+value.toFixed(1));

/** So many bytes, as `1.5 MiB`. */
export function bytes_words(count) {
  if (count >= MIB) return `${with_a_digit(count / MIB)} MiB`;
  return count >= KIB ? `${with_a_digit(count / KIB)} KiB` : `${count} B`;
}
