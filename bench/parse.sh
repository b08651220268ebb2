#!/bin/sh
# That parsing and printing are linear: `csswork transform` on sheets of 1, 2, 4 and 8 MB of each kind.
#
#   bench/parse.sh
#
# Prints the wall time in seconds (the best of five) and the peak memory in MiB. Kinds: ordinary CSS; `a/**//**/..`, which is
# one word with comments behind it; `;` alone; `(` alone, which is a fault at its end; ordinary CSS on one line; and blocks that
# stand 200 deep.
set -u
top=$(cd "$(dirname "$0")/.." && pwd)
work=$(mktemp -d)
trap 'rm -rf "$work"' EXIT
"$top/csswork" </dev/null >/dev/null 2>&1

# made KIND BYTES: a sheet of about that many bytes, and no more.
made() {
    python3 - "$1" "$2" <<'PY'
import sys

kind, size = sys.argv[1], int(sys.argv[2])
rule = """.nav > li:not(.active)::before {
  content: "\\201C";
  color: var(--brand, #336699);
  background: url(data:image/png;base64,iVBORw0KGgo=) no-repeat;
  transition: opacity .2s ease-in-out !important;
}

@media screen and (min-width: 600px) {
  .nav { margin: 0 auto; } /* a note */
}

"""
deep = "a{" * 200 + "b:c" + "}" * 200 + "\n"
parts = {
    "ordinary": rule,
    "comments": "/**/",
    "semicolons": ";",
    "brackets": "(",
    "one-line": rule.replace("\n", " "),
    "deep": deep,
}
part = parts[kind]
first = "a" if kind == "comments" else ""
last = ":b;" if kind == "comments" else ""
sys.stdout.write(first + part * ((size - 4) // len(part)) + last)
PY
}

for kind in ordinary comments semicolons brackets one-line deep; do
    printf '%-12s' "$kind"
    for megabytes in 1 2 4 8; do
        made "$kind" $((megabytes * 1048576)) >"$work/sheet.css"
        # shellcheck disable=SC2046
        set -- $(python3 "$top/bench/measure.py" 5 "$work/sheet.css" "$work/out" "$top/csswork" transform)
        printf '  %s MB %s s %s MiB' "$megabytes" "$1" "$2"
    done
    echo
done
