#!/bin/sh
# Makes the Debian package and runs the program from its unpacked tree. Where dpkg-deb isn't there, it is passed over.
#
#   checks/deb.sh PROGRAM
set -eu
if ! command -v dpkg-deb > /dev/null; then
    echo 'deb: passed over, no dpkg-deb'
    exit 0
fi
program=$(realpath "$1")
top=$(cd "$(dirname "$0")/.." && pwd)
folder=$(mktemp -d)
trap 'rm -rf "$folder"' EXIT
package=$("$top/tools/deb" "$program" "$folder/made")
dpkg-deb -x "$package" "$folder/tree"
told=$("$folder/tree/usr/bin/looper" --version)
wanted=$("$program" --version)
[ "$told" = "$wanted" ] || { echo "deb: the package's program says '$told', not '$wanted'"; exit 1; }
gzip -dc "$folder/tree/usr/share/man/man1/looper.1.gz" | cmp - "$top/docs/looper.1" || exit 1
# Where man and lintian are there, neither may find an error.
if command -v man > /dev/null; then
    found=$(man --warnings -E UTF-8 -l -Tutf8 -Z "$top/docs/looper.1" 2>&1 > /dev/null)
    [ -z "$found" ] || { echo "deb: the manual page: $found"; exit 1; }
fi
if command -v lintian > /dev/null; then
    lintian --fail-on error --allow-root "$package" > "$folder/told" 2>&1 || { cat "$folder/told"; exit 1; }
fi
for tool in send play; do
    "$folder/tree/usr/share/doc/looper/examples/$tool" --help > /dev/null || exit 1
done
cd "$folder/tree/usr/share/doc/looper/examples/first-loop"
"$folder/tree/usr/bin/looper" render in.wav journal.txt out.wav > "$folder/told"
tail -n 1 "$folder/told" | grep -qx 'status 0' || { cat "$folder/told"; exit 1; }
echo "deb: $(basename "$package"): $told"
