#!/bin/sh
# Real sheets through the program.
#
#   bench/real_sheets.sh
#
# Each .css file that Debian's libjs-bootstrap, libjs-bootstrap4, libjs-bootstrap5, libjs-jquery-ui and fonts-font-awesome bring
# goes through `csswork transform`, and must come out as it went in; or it is answered by a fault, whose line is printed. Packages
# that are missing are installed by name where they can be, and else skipped. Ends with 1 where a sheet came out changed.
set -u
top=$(cd "$(dirname "$0")/.." && pwd)
work=$(mktemp -d)
trap 'rm -rf "$work"' EXIT

"$top/csswork" </dev/null >/dev/null 2>&1
changed=0
for package in libjs-bootstrap libjs-bootstrap4 libjs-bootstrap5 libjs-jquery-ui fonts-font-awesome; do
    if ! dpkg -s "$package" >/dev/null 2>&1 && ! apt-get install -y --no-install-recommends "$package" >/dev/null 2>&1; then
        echo "$package: not there, skipped"
        continue
    fi
    same=0
    faults=0
    dpkg -L "$package" | grep '\.css$' >"$work/sheets"
    while read -r sheet; do
        [ -f "$sheet" ] || continue
        if "$top/csswork" transform <"$sheet" >"$work/out" 2>"$work/err"; then
            if cmp -s "$sheet" "$work/out"; then
                same=$((same + 1))
            else
                echo "$sheet: came out changed"
                changed=1
            fi
        else
            faults=$((faults + 1))
            echo "$sheet: $(cat "$work/err")"
        fi
    done <"$work/sheets"
    echo "$package: $same unchanged, $faults with a fault"
done
exit "$changed"
