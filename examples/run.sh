#!/bin/sh
# Builds panelcut (every crate below it is proved first), cuts the shipped panel, and shows what the knife will do.
cd "$(dirname "$0")/.." || exit 1
echo "proving and building panelcut (some minutes the first time) ..."
said=$(mktemp)
(cd crates/panelcut && rt run <../../examples/luff.panel >/dev/null 2>"$said") || { cat "$said"; rm -f "$said"; exit 1; }
grep '^logic=' "$said" | tail -n 1
rm -f "$said"
mkdir -p target/bin
cp crates/panelcut/out/panelcut target/bin/panelcut
panel=${1:-examples/luff.panel}
out=target/$(basename "$panel" .panel).cut
echo "panel:   $panel, $(wc -c <"$panel" | tr -d ' ') bytes, $(od -An -tu1 -j 4 -N 2 "$panel" | awk '{ print $1 + 256 * $2 }') vertices"
target/bin/panelcut <"$panel" >"$out"
ended=$?
if [ "$ended" -ne 0 ]; then
    cat "$out"
    exit "$ended"
fi
echo "program: $out, $(wc -c <"$out" | tr -d ' ') bytes; steps of 1/16 mm shown in mm"
od -An -v -tu1 -w1 "$out" | awk '
    function step(  n) {
        n = b[i] + 256 * b[i + 1] + 65536 * b[i + 2] + 16777216 * b[i + 3]
        i += 4
        return (n < 2147483648 ? n : n - 4294967296) / 16
    }
    { b[count++] = $1 }
    END {
        while (i < count) {
            c = b[i++]
            if (c == 84) printf "  travel to %10.4f %10.4f\n", step(), step()
            else if (c == 75) { printf "  stroke to %10.4f %10.4f\n", step(), step(); strokes++ }
            else if (c == 68) print "  lower"
            else if (c == 85) print "  raise"
            else if (c == 69) print "  finish"
        }
        print strokes " strokes"
    }'
