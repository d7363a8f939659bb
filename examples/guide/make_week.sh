# tap DEPOT CARD VALIDATOR MOMENT: a row in the depot's table of that day
tap() {
    local table=${4%T*}-$1.csv
    [ -e "$table" ] || echo token,validator,moment > "$table"
    printf '%32s,%s,%sZ\n' "$2" "$3" "$4" | tr ' ' 0 >> "$table"
}
for day in 2026-03-0{2..6}T; do                 # a commuter, Monday to Friday
    tap tram a1 101 ${day}13:00:00              # 8:00 in New York
    tap bus a1 201 ${day}13:40:00
    tap bus a1 201 ${day}22:30:00
    tap tram a1 101 ${day}23:05:00
done
tap tram a1 101 2026-03-07T15:00:00             # and at the weekend
tap tram a1 102 2026-03-07T20:00:00
tap bus a1 201 2026-03-08T15:00:00              # 11:00, after the change of clocks
tap tram b2 101 2026-03-04T13:00:00             # three rides on Wednesday
tap bus b2 201 2026-03-04T16:00:00
tap tram b2 101 2026-03-04T20:00:00
tap bus c3 202 2026-03-03T14:00:00              # a reduced fare, and a new stop
tap tram c3 301 2026-03-05T14:00:00
