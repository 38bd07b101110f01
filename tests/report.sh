# Opens a report of a database with a log, and one of a damaged one, in a headless Chromium, light and dark: no error
# on its console, and pictures at FOLDER. Run as: bash tests/report.sh FOLDER; needs chromium and sqlite3. Not a part of
# the gate.
set -u
pictures=${1:?names no folder for the pictures}
. "$(dirname "$0")/lib.sh"
. "$top/tests/makers.sh"
located sqrescue sqrescue
need chromium sqlite3

shot() { # PAGE PICTURE [OPTION]: a picture of a page; says no error of its scripts
  local said
  said=$(chromium --headless --no-sandbox --disable-gpu --hide-scrollbars --window-size=1220,1100 \
    --enable-logging=stderr ${3:-} --virtual-time-budget=2000 --screenshot="$2" "file://$1" 2>&1)
  [ -s "$2" ] && ! grep -q 'CONSOLE.*\(rror\|Uncaught\)' <<<"$said"
}

mkdir -p "$pictures"
live 1024 "$folder/ledger.db" "$commits"
cp "$folder/ledger.db" "$folder/bad.db"
printf 'x' | dd of="$folder/bad.db" bs=1 seek=1030 conv=notrunc status=none
for name in ledger bad; do
  check "$name: report" "$sqrescue" report "$folder/$name.db" --to "$folder/$name.html"
  check "$name: light" shot "$folder/$name.html" "$pictures/$name.png"
  check "$name: dark" shot "$folder/$name.html" "$pictures/$name-dark.png" --force-dark-mode
done
finish
