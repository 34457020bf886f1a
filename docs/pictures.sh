#!/usr/bin/env bash
# Makes this folder's pictures again from the frames that the program writes: the screens of
# examples/screen-os.asm in modes 0 to 7, the typed text of the README, and a disc with a program by
# the ROMs of system/, on the host alone and with the second processor. With the word `check` it
# reports which of them show something else, and ends with 1 then.
set -eu
how=${1:-make}
case $#$how in
    0make | 1make | 1check) ;;
    1--help) sed -n '2,/^set/s/^# //p' "$0"; exit ;;
    *) echo "docs/pictures.sh: the words are none, or check" >&2; exit 2 ;;
esac
top=$(cd "$(dirname "$0")/.." && pwd)
work=$(mktemp -d) || exit 1
trap 'rm -rf "$work"' EXIT
cd "$work"

picture() { # FRAME PICTURE
    if [ "$how" = check ]; then "$top/tools/png" --compare "$top/docs/$2" "$1" || status=1; else "$top/tools/png" "$1" "$top/docs/$2"; fi
}

status=0
"$top/beebtube" asm 6502 "$top/examples/font.asm" font
"$top/beebtube" asm 6502 "$top/examples/screen-os.asm" os
: >empty.trace
"$top/beebtube" replay host empty.trace 23000000 screen --os os --font font --keys "$top/examples/screen.keys"
for mode in 0 1 2 3 4 5 6 7; do picture "screen.00$mode.ppm" "mode$mode.png"; done

"$top/examples/typing.sh"
"$top/tools/type" --shot 'Hello, world!{RETURN}' >hello.keys 2>told
"$top/beebtube" run 24000000 hello --os os --tube tube --font font --keys hello.keys
picture hello.000.ppm hello.png

"$top/examples/where.sh"
printf 'at 0 down 00\nat 16000000 shot\n' >where.keys
also=(--keys where.keys --disc0 where.ssd)
"$top/tools/words" "$top/system/system.set" >own.words
sed 's/--tube [^ ]*//' own.words >alone.words
read -ra own <own.words
read -ra alone <alone.words
"$top/beebtube" solo 16200000 both "${own[@]}" "${also[@]}"
"$top/beebtube" replay host empty.trace 16200000 host --no-tube "${alone[@]}" "${also[@]}"
picture host.000.ppm system-host.png
picture both.000.ppm system-tube.png
exit "$status"
