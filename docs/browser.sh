#!/usr/bin/env bash
# Opens the pages of three runs in Chromium without a window, presses their buttons, and compares their texts with what the program and the
# tools say: a typed text, a sound with a disc, and a run whose names and files try to be more than data. Then the contact sheet of a collection, with
# a run that differs, one that fails, and one whose name tries to be more than data.
#
#   docs/browser.sh                   compares; status 1 where something differs, 77 where no browser is installed (Debian's package is `chromium`)
#   docs/browser.sh pictures FOLDER   leaves pictures of the pages too: light, dark and narrow, and one page as it is printed
#   docs/browser.sh make              makes docs/page.png and docs/sheet.png again
set -u
top=$(cd "$(dirname "$(readlink -f "$0")")/.." && pwd)
how=${1:-compare} folder=${2:-}
for browser in chromium chromium-browser google-chrome ''; do
    [ -n "$browser" ] && command -v "$browser" >/dev/null && break
done
if [ -z "$browser" ]; then
    echo 'browser: no browser is installed (chromium, chromium-browser or google-chrome): nothing was tried'
    exit 77
fi
[ -z "$folder" ] || { mkdir -p "$folder" && folder=$(cd "$folder" && pwd); } || exit 1
work=$(mktemp -d) || exit 1
trap 'rm -rf "$work"' EXIT
cd "$work" || exit 1
passed=0 failed=0
flags=(--headless --disable-gpu --hide-scrollbars --no-first-run --user-data-dir="$work/profile" --virtual-time-budget=20000)
[ "$(id -u)" != 0 ] || flags+=(--no-sandbox)

compare() { # WHAT WANTED GOT
    if [ "$2" = "$3" ]; then
        passed=$((passed + 1))
    else
        failed=$((failed + 1))
        printf 'browser: %s\n  wanted: %s\n  got:    %s\n' "$1" "$2" "$3"
    fi
}

address_of() { # PAGE STEPS
    python3 -c 'import pathlib, sys, urllib.parse
print(pathlib.Path(sys.argv[1]).absolute().as_uri() + "#press=" + urllib.parse.quote(sys.argv[2]))' "$1" "$2"
}

opened() { # PAGE STEPS: the document, once these were pressed, in `dom`
    timeout 300 "$browser" "${flags[@]}" --window-size=1200,1000 --dump-dom "$(address_of "$1" "$2")" >dom 2>told
}

picture() { # PAGE STEPS FILE WIDTH HEIGHT WORD ..
    timeout 300 "$browser" "${flags[@]}" --window-size="$4,$5" --screenshot="$3" "${@:6}" "$(address_of "$1" "$2")" >told 2>&1
}

# What an element of `dom` has: its text, or an attribute.
inside() { # ID [ATTRIBUTE]
    python3 - "$@" <<'PY'
import html.parser
import sys

EMPTY = ("img", "input", "meta", "br")


class Reader(html.parser.HTMLParser):
    depth, text, given = 0, "", {}

    def handle_starttag(self, tag, attributes):
        if self.depth:
            self.depth += tag not in EMPTY
        elif dict(attributes).get("id", tag if tag in ("html", "title") else None) == sys.argv[1]:
            self.given, self.depth = dict(attributes), int(tag not in EMPTY)

    def handle_endtag(self, tag):
        self.depth -= self.depth > 0 and tag not in EMPTY

    def handle_data(self, data):
        self.text += data if self.depth else ""


reader = Reader()
with open("dom", encoding="utf-8") as file:
    reader.feed(file.read())
print(reader.given.get(sys.argv[2], "none") if len(sys.argv) > 2 else reader.text, end="")
PY
}

wants() { # WHAT ID WANTED
    compare "$1" "$3" "$(inside "$2")"
}

# A page is whole if its script came to its end, reported no fault, and nothing is wider than the window.
whole() { # WHAT
    compare "$1: the script's end" yes "$(inside html data-ready)"
    compare "$1: faults" '' "$(inside fault)"
}

# A collection in `results` of the screen of each mode, one of which differs from that which is stored, of the typed text, of one that is refused, and
# but for a picture of two with hostile names.
hostile='<script>document.documentElement.dataset.ran=1</script><img src=x onerror=document.documentElement.dataset.ran=1>.ssd'
make_collection() {
    local number
    "$top/beebtube" asm 6502 "$top/examples/screen-os.asm" screen-os
    for number in 0 1 2 3 4 5 6 7; do
        # The key of each digit, from 0 on.
        printf 'at 100000 down %s\nat 300000 up %s\nat 2900000 shot\n' $(sed -n "s/^at [0-9]* down //p" "$top/examples/screen.keys" | sed -n "$((number + 1))p"){,} >"mode$number.keys"
    done
    {
        echo 'name,ticks,keys,disc0,words'
        for number in 0 1 2 3 4 5 6 7; do echo "mode $number,3000000,mode$number.keys,,replay host /dev/null --os screen-os --font font"; done
        echo 'typed,8000000,typed.keys,,--os os --tube tube --font font --keep 60000'
        echo 'too long,8000000,,long.ssd,--os os --tube tube'
        [ "$how" = make ] || echo "\"${hostile//\//}\",100,,,"
        [ "$how" = make ] || echo "\"${hostile//\//_}\",100,,,--os os --tube tube"
    } >list.csv
    head -c 204801 /dev/zero >long.ssd
    "$top/tools/suite" list.csv results >told
    cp results/results.csv stored.csv
    # Another digit.
    sed 's/^at 2900000/at 2000000/' mode1.keys >mode5.keys
    "$top/tools/suite" --against stored.csv list.csv results >told
}

# --- A typed text ---

"$top/examples/typing.sh"
"$top/tools/type" --start 0.1 --hold 0.05 --gap 0.05 'Hi{SHOT}, you{SHOT}!{RETURN}{WAIT 0.2}{SHOT}' >typed.keys 2>told
"$top/tools/manifest" run 8000000 typed --os os --tube tube --font font --keys typed.keys --keep 60000 >typed.manifest
"$top/tools/page" typed
if [ "$how" = make ]; then
    "$top/beebtube" run 8000000 page --os os --tube tube --font font --keys typed.keys
    "$top/tools/page" page --keys typed.keys
    picture page.html 'shot-at=2;address=7C00' "$top/docs/page.png" 900 2660 --force-device-scale-factor=0.5
    make_collection
    picture results/index.html '' "$top/docs/sheet.png" 1000 1900 --force-device-scale-factor=0.5
    exit
fi
opened typed.html 'shot-on'
whole 'typed'
wants 'a shot further, and the key that is down there' shot-told 'Screen of shot 1, at 0.800 s; down: SHIFT'
compare 'its picture' "$(inside shot src | cut -c1-22)" 'data:image/png;base64,'
compare 'no sound' 'none' "$(inside heard src)"
opened typed.html 'shot-at=2;shot-large'
compare 'a shot is enlarged' '' "$(inside large open)"
compare 'and named' 'Screen of shot 2, at 1.200 s' "$(inside large-image alt)"
opened typed.html 'thumb-0;large-close;shot-back;shot-play'
compare 'the large one is closed' none "$(inside large open)"
compare 'shots play' 'Stop true' "$(inside shot-play) $(inside shot-play aria-pressed)"
"$top/tools/tube" --all typed.trace >all
"$top/tools/tube" typed.trace >sums
wants 'the sums of the Tube' tube-told "$(cat sums)"
for number in 1 2 3 40; do
    steps=access-on
    for ((at = 1; at < number; at++)); do steps="$steps;access-on"; done
    opened typed.html "$steps"
    wants "access $number" chart-told "Access $number of 60000: at $(sed -n "${number}s/^ *//p" all)"
done
opened typed.html 'chart!End;chart!ArrowLeft;chart!ArrowLeft'
compare 'accesses before the end' "$(tail -n 9 all | sed '7s/^/> /; 7!s/^/  /')" "$(inside accesses)"
opened typed.html 'zoom-in;zoom-in;zoom-out;move-right;zoom-all'
wants 'the whole again' chart-told 'From 0.000 s to 1.333 s: 60000 accesses of the page.'
opened typed.html 'memory=1;address=F800'
dd if=typed.para of=boot bs=256 skip=248 count=1 2>told
"$top/beebtube" dis 65c02 boot F800 boot.text
compare 'the disassembly' "$(sed -n 2,25p boot.text)" "$(inside code | cut -c17-)"
compare 'the bytes' "$(xxd -s 0xF800 -l 384 -c 16 -g 1 -u typed.para | tr a-f A-F | sed -E 's/^0000(....): /\1  /' | cut -c1-55 | sed 's/ *$//')" \
    "$(inside bytes | cut -c1-55 | sed 's/ *$//')"
opened typed.html 'find="Hi";find-next'
place=$(grep -obaF Hi typed.host | head -n 1 | cut -d : -f 1)
wants 'a text is found' found "Found at $(printf %04X "$place")."
opened typed.html 'find=01 02 03 04 05 06;find-next'
wants 'bytes that are nowhere' found 'Not found.'
opened typed.html 'find=x;find-next'
wants 'what is no bytes' found 'Bytes are pairs of digits; text has quotes around it.'

# --- A sound, and a disc ---

"$top/beebtube" asm 6502 "$top/examples/scale-os.asm" scale-os
"$top/beebtube" asm 6502 "$top/examples/disc-os.asm" disc-os
"$top/beebtube" asm 65c02 "$top/examples/loop-tube.asm" loop
"$top/beebtube" asm 6502 "$top/examples/disc.asm" some.dsd
"$top/beebtube" run 15600000 scale --os scale-os --tube loop --wav scale.wav
"$top/tools/page" scale --wav scale.wav
opened scale.html ''
whole 'scale'
compare 'the sound' 'blob:' "$(inside heard src | cut -c1-5)"
"$top/tools/manifest" run 3000000 disc --os disc-os --tube loop --disc0 some.dsd >disc.manifest
"$top/tools/page" disc
opened disc.html ''
whole 'disc'
compare 'what the run changed' 'Sectors that the run changed: 39' "$(inside discs | grep -o 'Sectors that the run changed: 39')"
compare 'a file of the disc' yes "$(inside discs | grep -qF '$.!BOOTlocked00000003FFFF12003same' && echo yes)"

# --- What tries to be more than data ---

bad='<img src=x onerror=document.documentElement.dataset.ran=1>'
cp typed.trace "$bad.trace" && cp typed.host "$bad.host" && cp typed.report "$bad.report"
sed -i '$d' "$bad.report" && echo 'frames 0' >>"$bad.report"
printf '%s\n' 'beebtube manifest 1' 'words run 1 o </script><script>document.documentElement.dataset.ran=1</script>' "told $bad" \
    "read $(printf %064d 0) 1 <script>document.documentElement.dataset.ran=1</script>" >"$bad.manifest"
"$top/tools/page" "$bad"
opened "$bad.html" 'access-on'
whole 'hostile names'
compare 'nothing ran' none "$(inside html data-ran)"
compare 'a name is shown as it is' yes "$(inside words | grep -qF "told $bad" && echo yes)"
# The page's policy: a script that somebody puts into a page does not run, and its own does.
sed 's|</main>|<script>document.documentElement.dataset.ran=1</script><img src="data:," onerror="document.documentElement.dataset.ran=1"></main>|' typed.html >put.html
opened put.html 'shot-on'
whole 'a page that was changed'
compare 'what was put in does not run' none "$(inside html data-ran)"

# --- A collection ---

make_collection
opened results/index.html ''
compare 'the sheet: parts' 'Differs from the stored run: 1|Failed: 2|The same as the stored run: 9' "$(inside differs-title)|$(inside failed-title)|$(inside same-title)"
compare 'the sheet: the run that differs' yes "$(inside differs | grep -q '^mode 5' && echo yes)"
compare 'the sheet: what differs of it' yes "$(inside differs | grep -qF '000.ppmwas ' && echo yes)"
compare 'the sheet: nothing ran' none "$(inside html data-ran)"
compare 'the sheet: a hostile name is shown as it is' yes "$(inside same | grep -qF "${hostile//\//_}" && echo yes)"
compare 'the sheet: no script stands in it' 0 "$(grep -c '<script' dom)"
sed 's|</main>|<script>document.documentElement.dataset.ran=1</script><img src="data:," onerror="document.documentElement.dataset.ran=1"></main>|' results/index.html >results/put.html
opened results/put.html ''
compare 'the sheet: what was put in does not run' none "$(inside html data-ran)"
# Frames are there, and shown: a sheet whose frames were taken away looks otherwise.
picture results/index.html '' sheet.png 1200 1800
picture results/index.html '' sheet-dark.png 1200 1800 --blink-settings=preferredColorScheme=0
picture results/index.html '' sheet-narrow.png 400 4000
mkdir bare && cp results/index.html bare
picture bare/index.html '' sheet-bare.png 1200 1800
for one in sheet sheet-dark sheet-narrow; do
    compare "a picture, $one" 89504e47 "$([ -e $one.png ] && xxd -p -l 4 $one.png)"
done
compare 'the sheet: light and dark differ' yes "$(cmp -s sheet.png sheet-dark.png || echo yes)"
compare 'the sheet: with and without frames differ' yes "$(cmp -s sheet.png sheet-bare.png || echo yes)"
link=$(grep -o 'href="runs/[0-9a-f]*.html">typed' results/index.html | cut -d'"' -f2)
opened "results/$link" 'shot-on'
whole 'a page of the sheet'
compare 'its name' Run "$(inside title | cut -d' ' -f1)"
wants 'its shot' shot-told 'Screen of shot 1, at 0.800 s; down: SHIFT'

# --- Pictures ---

picture typed.html 'shot-at=2;chart!End' light.png 1200 4000
picture typed.html 'shot-at=2;chart!End' dark.png 1200 4000 --blink-settings=preferredColorScheme=0
picture typed.html 'shot-at=2;chart!End' narrow.png 500 5200
for one in light dark narrow; do
    compare "a picture, $one" 89504e47 "$([ -e $one.png ] && xxd -p -l 4 $one.png)"
done
compare 'light and dark differ' yes "$(cmp -s light.png dark.png || echo yes)"
timeout 300 "$browser" "${flags[@]}" --print-to-pdf=print.pdf "$(address_of typed.html '')" >told 2>&1
compare 'a print' '%PDF' "$(head -c 4 print.pdf 2>/dev/null)"
[ "$how" != pictures ] || cp light.png dark.png narrow.png print.pdf sheet.png sheet-dark.png sheet-narrow.png "$folder"
echo "browser: $("$browser" --version 2>/dev/null | head -n 1): $passed passed, $failed failed"
[ "$failed" -eq 0 ]
