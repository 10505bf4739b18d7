#!/usr/bin/env bash
# A day at three desks: an office and a link for each mixer of the paint plant, over named pipes. It prints the lines that the office was told.
# Usage: run.sh [PROGRAM], which is batchd where it isn't named.
set -euo pipefail
program=${1:-batchd}
here=$(cd "$(dirname "$0")" && pwd)
plant=$here/../paint_plant
day=$(mktemp -d)
server='' links=()
trap 'kill $server "${links[@]}" 2>/dev/null || true; rm -rf "$day"' EXIT
cd "$day"
mkfifo office.in office.out mixer1.in mixer1.out mixer2.in mixer2.out

"$program" serve "$here/desks.toml" "$plant/cell.toml" "$plant/certificate.txt" "$plant/"{primer,varnish,topcoat,rinse-mended,thinner}.toml >record &
server=$!
for mixer in mixer1 mixer2; do
    "$here/link.py" $mixer.in $mixer.out &
    links+=($!)
done

# the office creates and starts a batch, and waits until it is complete
exec 3>office.in 4<office.out
printf 'create PRIMER 1000\nstart 1\n' >&3
while read -r line <&4; do
    echo "$line"
    case $line in
        'state 1 complete') break ;;
    esac
done
printf 'reset 1\nremove 1\n' >&3
exec 3>&-
cat <&4 &
rest=$!
# a link that goes away ends its input, and the server ends with the last of them
kill "${links[@]}"
wait "$server"
wait "$rest"
echo "the record has $(grep -c '^# from MIXER1_LINK' record) runs of lines of the link of MIXER1"
