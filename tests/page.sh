#!/usr/bin/env bash
# Opens pages that the command makes in Chromium and lets each check itself: every cell has its words and constructs, every 0 a run
# that shows it. PICTURES names a directory for pictures of the example. BOHRALI and CHROMIUM name the programs.
set -euo pipefail
cd "$(dirname "$0")/.."

bohrali=${BOHRALI:-target/bin/bohrali} chromium=${CHROMIUM:-chromium}
if ! command -v "$chromium" >/dev/null; then
    echo "page: $chromium is not there: no page was opened"
    exit 0
fi
made=$(mktemp -d)
trap 'rm -rf "$made"' EXIT

browse() { # browse ADDRESS OPTION..
    timeout 120 "$chromium" --headless --no-sandbox --disable-gpu --hide-scrollbars --user-data-dir="$made/profile" \
        --virtual-time-budget=20000 "${@:2}" "file://$made/$1" 2>/dev/null
}

check() { # check NAME FILE..
    "$bohrali" page "${@:2}" --source examples/playtest -o "$made/$1.html" >/dev/null
    told=$(browse "$1.html#check=1" --dump-dom | sed -n 's/.* data-check="\([^"]*\)".*/\1/p' | sed 's/&quot;/"/g')
    case $told in
    '{"count":0,'*) echo "page: $1 $told" ;;
    *) echo "page: $1 fails its check: $told" && exit 1 ;;
    esac
}

check playtest examples/playtest/playtest.csv
check charts charts/*.chart
"$bohrali" regions rust/frontend/tests/flows/O2/hand/*.flow -o "$made/tables" >/dev/null
check program "$made/tables"
if [ -n "${PICTURES:-}" ]; then
    picture() { browse "playtest.html#$2" --window-size=1500,900 --screenshot="$made/$1.png" && mv "$made/$1.png" "$PICTURES"; }
    picture page-overview theme=light
    picture page-run 'theme=light&c=14,17'
    picture page-dark 'theme=dark&c=4,7'
fi
