"""The programs whose runs are measured, with mawk's programs for the same and the records of each."""
SUMS = """count: table sum of int;
total: table sum of int;
sum_of_squares: table sum of int;
x: int = input;
emit count <- 1;
emit total <- x;
emit sum_of_squares <- x * x;
"""
SUMS_AWK = r"""{ n++; t += $1; q += $1 * $1 }
END { printf "count[] = %.0f\ntotal[] = %.0f\nsum_of_squares[] = %.0f\n", n, t, q }"""

LOG = """hits: table sum[country: string] of int;
biggest: table maximum(10) of string weight size: int;
codes: table set(1000) of int;
a: int = strfind(B" ", input);
if (a < 0) return;
rest: bytes = input[a + 1 : len(input)];
b: int = strfind(B" ", rest);
if (b < 0) return;
tail: bytes = rest[b + 1 : len(rest)];
c: int = strfind(B" ", tail);
if (c < 0) return;
emit hits[string(input[0 : a])] <- 1;
emit biggest <- string(rest[0 : b]) weight int(tail[0 : c]);
emit codes <- int(tail[c + 1 : len(tail)]);
"""
LOG_AWK = r"""function add(w, v,   i) {
  if (n < 10) i = ++n
  else if (w > W[10] || (w == W[10] && v < V[10])) i = 10
  else return
  while (i > 1 && (W[i-1] < w || (W[i-1] == w && V[i-1] > v))) { W[i] = W[i-1]; V[i] = V[i-1]; i-- }
  W[i] = w; V[i] = v
}
NF >= 4 { hits[$1]++; if ($3 != "-") add($3 + 0, $2 ""); codes[$4] }
END {
  for (k in hits) printf "hits[\"%s\"] = %d\n", k, hits[k]
  for (i = 1; i <= n; i++) printf "biggest[] = \"%s\" weight %d\n", V[i], W[i]
  for (k in codes) printf "codes[] = %d\n", k
}"""

# The same with the words taken by a function that calls itself for each, as in examples/hours.szl.
WORDS = """word: function(line: string, number: int): string {
    blank: int = strfind(" ", line + " ");
    if (number == 0) return line[0:blank];
    return word(line[blank + 1:len(line)], number - 1);
}
hits: table sum[country: string] of int;
biggest: table maximum(10) of string weight size: int;
codes: table set(1000) of int;
line: string = input;
code: int = word(line, 3);
if (!def(code)) return;
size: int = word(line, 2);
emit hits[word(line, 0)] <- 1;
emit biggest <- word(line, 1) weight size;
emit codes <- code;
"""

LOOP = """total: table sum of int;
x: int = input;
i: int = 0;
sum: int = 0;
while (i < 1000) {
  x = (x * 75 + 74) % 65537;
  if (x % 2 == 0) sum = sum + x; else sum = sum - x;
  i++;
}
emit total <- sum;
"""
LOOP_AWK = r"""{ x = $1; s = 0
  for (i = 0; i < 1000; i++) { x = (x * 75 + 74) % 65537; if (x % 2 == 0) s += x; else s -= x }
  total += s }
END { printf "total[] = %.0f\n", total }"""

KEYS = """sums: table sum[key: string] of int;
p: int = strfind(B" ", input);
if (p < 0) return;
emit sums[string(input[0 : p])] <- int(input[p + 1 : len(input)]);
"""
KEYS_AWK = r"""{ sums[$1] += $2 } END { for (k in sums) printf "sums[\"%s\"] = %d\n", k, sums[k] }"""


def log_line(r, _records):
    country = r.choices(["us", "cn", "in", "jp", "de", "br", "gb", "fr"], [40, 20, 10, 8, 7, 6, 5, 4])[0]
    size = "-" if r.random() < 0.005 else r.randrange(1 << r.randrange(6, 26))
    return f"{country} u{r.randrange(1000, 1 << r.randrange(11, 22))} {size} {r.choice([200, 200, 200, 304, 404, 500])}"


WORKLOADS = [
    ("three sums", SUMS, SUMS_AWK, 1, [], lambda r, _: str(r.randrange(-40000, 40001))),
    ("a log by country", LOG, LOG_AWK, 1, [], log_line),
    ("a log by `word`", WORDS, LOG_AWK, 1, [], log_line),
    ("1,000 turns a record", LOOP, LOOP_AWK, 100, ["--shard", "100"], lambda r, _: str(r.randrange(65537))),
    ("a sum by key", KEYS, KEYS_AWK, 1, [], lambda r, records: f"k{r.randrange(records // 2)} {r.randrange(1000)}"),
]
