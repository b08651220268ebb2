#!/bin/sh
# csswork beside PostCSS on the same sheets.
#
#   bench/peers.sh
#
# Takes bootstrap.css of Debian's libjs-bootstrap5 and PostCSS of Debian's node-postcss, which are installed by name where they
# are missing and can be; else what lacks is skipped. For the sheet, and for thirty copies of it in one sheet of about 7 MB, it
# prints the wall time (the best of nine) and the peak memory of the whole processes: csswork transform, csswork lint, and
# PostCSS parsing and printing; then csswork with the plugins short-hex and drop-empty, and PostCSS with the same two; and the
# ratios to PostCSS. They run in turns. The first outputs are compared with the input, byte for byte, and the last two with
# each other.
set -u
top=$(cd "$(dirname "$0")/.." && pwd)
work=$(mktemp -d)
trap 'rm -rf "$work"' EXIT

# have PACKAGE: whether Debian's package is installed, or can be.
have() {
    dpkg -s "$1" >/dev/null 2>&1 || apt-get install -y --no-install-recommends "$1" >/dev/null 2>&1
}

have libjs-bootstrap5 || { echo 'peers: libjs-bootstrap5 is not there, so nothing was measured'; exit 0; }
sheet=$(dpkg -L libjs-bootstrap5 | grep '/bootstrap\.css$' | head -n 1)
cp "$sheet" "$work/bootstrap.css"
for _ in 1 2 3 4 5 6 7 8 9 10 11 12 13 14 15 16 17 18 19 20 21 22 23 24 25 26 27 28 29 30; do
    cat "$sheet"
done >"$work/thirty.css"

cat >"$work/postcss.js" <<'JS'
const { readFileSync, writeSync } = require('fs')
const postcss = require('postcss')
const text = readFileSync(0, 'utf8')
const bytes = Buffer.from(postcss.parse(text).toString())
for (let at = 0; at < bytes.length; ) at += writeSync(1, bytes, at)
JS
cat >"$work/plugins.js" <<'JS'
const { readFileSync, writeSync } = require('fs')
const postcss = require('postcss')
const digits = /#([0-9a-f])\1([0-9a-f])\2([0-9a-f])\3(?:([0-9a-f])\4)?(?![0-9a-z_-])/gi
const shortHex = {
    postcssPlugin: 'short-hex',
    Declaration(node) {
        const short = node.value.replace(digits, (all, a, b, c, d) => '#' + a + b + c + (d || ''))
        if (short !== node.value) node.value = short
    }
}
const drop = node => {
    if (node.nodes && node.nodes.length === 0) node.remove()
}
const dropEmpty = { postcssPlugin: 'drop-empty', RuleExit: drop, AtRuleExit: drop }
const text = readFileSync(0, 'utf8')
const bytes = Buffer.from(postcss([shortHex, dropEmpty]).process(text, { from: undefined }).root.toString())
for (let at = 0; at < bytes.length; ) at += writeSync(1, bytes, at)
JS
peer=no
if have node-postcss && command -v node >/dev/null 2>&1; then
    peer=yes
    NODE_PATH=/usr/share/nodejs
    export NODE_PATH
fi

# The first run proves and builds the program where that is to be done.
"$top/csswork" </dev/null >/dev/null 2>&1

# shown NAME WANTED-STATUS, with a line of measure.py as the standard input: says what it holds, and keeps it.
shown() {
    read -r seconds memory status
    case " $2 " in
        *" $status "*) ;;
        *) echo "peers: $1 ended with status $status" ;;
    esac
    printf '  %-20s %8s s %8s MiB\n' "$1" "$seconds" "$memory"
    echo "$seconds $memory" >>"$work/shown"
}

same() {
    cmp -s "$1" "$2" || echo "peers: $3"
}

# ratios: of PostCSS, in the third and fifth line, to the others.
ratios() {
    awk '{ seconds[NR] = $1; memory[NR] = $2 } END {
        printf "  PostCSS takes %.1f times as long as transform, %.1f times as long as lint, and %.1f times as long with the plugins;\n", seconds[3] / seconds[1], seconds[3] / seconds[2], seconds[5] / seconds[4]
        printf "  %.1f times the memory of transform, %.1f times that of lint, and %.1f times with the plugins\n", memory[3] / memory[1], memory[3] / memory[2], memory[5] / memory[4]
    }' "$work/shown"
}

for name in bootstrap thirty; do
    input=$work/$name.css
    echo "$name.css, $(wc -c <"$input") bytes"
    : >"$work/shown"
    set -- "$work/transform" "$top/csswork" transform + "$work/lint" "$top/csswork" lint
    if [ "$peer" = yes ]; then
        set -- "$@" + "$work/postcss" node "$work/postcss.js"
    fi
    set -- "$@" + "$work/plugins" "$top/csswork" transform --use short-hex,drop-empty
    if [ "$peer" = yes ]; then
        set -- "$@" + "$work/postcss_plugins" node "$work/plugins.js"
    fi
    python3 "$top/bench/measure.py" 9 "$input" "$@" >"$work/lines"
    {
        shown 'csswork transform' 0
        shown 'csswork lint' '0 2'
        if [ "$peer" = yes ]; then shown 'PostCSS' 0; fi
        shown 'csswork, plugins' 0
        if [ "$peer" = yes ]; then shown 'PostCSS, plugins' 0; fi
    } <"$work/lines"
    same "$input" "$work/transform" 'csswork transform changed the sheet'
    if [ "$peer" = yes ]; then
        same "$input" "$work/postcss" 'PostCSS changed the sheet'
        same "$work/plugins" "$work/postcss_plugins" 'csswork and PostCSS with the plugins differ'
        ratios
    else
        echo '  PostCSS is not there, and was skipped'
    fi
done
