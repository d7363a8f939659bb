#!/usr/bin/env bash
# An evening of an agency, with omny_cli, omny_audit and omny_tools on the PATH:
#
#   evening.sh TABLE DAY UPLOAD...     as evening.sh table.toml 2026-03-05 incoming/*.tap
#
# In the folder where it runs it keeps
#   archive/NAME                   each upload. None takes the place of another one
#   sorted/DAY.tap, DAY.ends       the day's uploads in canonical order, and how each ended
#   sorted/DAY.uploads             what each of them has
#   bills/DAY/bill.txt, bill.csv   the report and the ledger of all uploads so far
#   bills/DAY/corrections.csv      what the ledger changes in that of the last bill, if there is one
#   bills/DAY/audit.txt, sums      what omny_audit says of them, and the SHA-256 of all files
# The last line is the bill's totals. If an upload is damaged, or anything else fails, no bill is
# made, and the status is not 0. The same command again begins anew.
set -euo pipefail

table=$1 day=$2
shift 2
mkdir -p archive sorted bills
for upload; do
    kept=archive/${upload##*/}
    if [ -e "$kept" ] && ! cmp -s "$upload" "$kept"; then
        echo "evening: $kept is there, with other bytes" >&2
        exit 1
    fi
done
omny_tools uploads "$@" > "sorted/$day.uploads" || { cat "sorted/$day.uploads" >&2; exit 1; }
cp "$@" archive
omny_tools sort --out "sorted/$day.tap" --ends "sorted/$day.ends" "$@"

made=bills/.$day
rm -rf "$made"
mkdir "$made"
omny_cli --table "$table" --settle --sorted sorted/*.tap > "$made/bill.txt"
omny_cli --table "$table" --settle --sorted --ledger sorted/*.tap > "$made/bill.csv"
# the ledger has the taps of all uploads, and the report is that of the sorted files
{
    omny_audit --table "$table" "$made/bill.csv" --uploads archive/*.tap
    omny_audit --table "$table" "$made/bill.csv" --uploads sorted/*.tap --report "$made/bill.txt"
} > "$made/audit.txt" || { cat "$made/audit.txt" >&2; exit 1; }
last=
for bill in bills/*/; do
    [[ ${bill#bills/} < $day/ ]] && [ -e "$bill/bill.csv" ] && last=$bill
done
[ -z "$last" ] || omny_tools corrections "$last/bill.csv" "$made/bill.csv" > "$made/corrections.csv"
sha256sum "$table" archive/*.tap "$made"/bill.* | sed 's|bills/\.|bills/|' > "$made/sums"
rm -rf "bills/$day"
mv "$made" "bills/$day"
grep ^totals "bills/$day/bill.txt"
