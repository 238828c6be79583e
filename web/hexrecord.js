// A line of hex, taken apart for showing where its data goes. Whether the line is good is the library's answer.

// A data record's address field and number of bytes, for showing where its data goes.
export function recordOf(line) {
  const digits = (from, to) => parseInt(String.fromCharCode(...line.subarray(from, to)), 16);
  if (line.length < 11 || line[0] !== 58) return null;
  return { length: digits(1, 3), address: digits(3, 7), type: digits(7, 9) };
}
