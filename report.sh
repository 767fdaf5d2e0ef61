#!/usr/bin/env bash
# report.sh [FILE]: prints the report on an exchange file, file K of the rules where none is named. Builds the program first where that is needed: on a fresh
# machine with the Rattle toolchain this proves everything below it, which takes some minutes. A refusal is said in words on standard error.
set -euo pipefail
root=$(cd "$(dirname "${BASH_SOURCE[0]}")" && pwd)
file=${1:-$root/crates/report/stdin}
program=$root/target/bin/report
if [ ! -e "$program" ] || [ -n "$(find "$root/crates" "$root/crates.txt" -name out -prune -o -type f -newer "$program" -print -quit)" ]; then
    echo "building the report program ..." >&2
    mkdir -p "$root/target/bin"
    (cd "$root/crates/report" && rt run <stdin) >"$root/target/report.log" 2>&1 || { tail -n 20 "$root/target/report.log" >&2; exit 2; }
    cp "$root/crates/report/out/report" "$program"
fi
report=$("$program" <"$file")
printf '%s\n' "$report"
case $report in
refused*)
    IFS=$'\t' read -r _ number line column <<<"$report"
    words=$(sed -n "s|^ *\"\(.*\)\", *\(/\* *$number \*/\).*|\1|p" "$root/bindings/c/pochahuic.h" | head -n 1)
    echo "$(basename "$file"): line $line, column $column: ${words:-refused} ($number)" >&2
    exit 1
    ;;
esac
