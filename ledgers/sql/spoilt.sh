# Sourced by the bash scripts that load ledgers.
# shellcheck shell=bash

spoilt_window=2024-03-08T17:00:00.000Z,2024-03-15T17:00:00.000Z

# what is wrong with a ledger, and the sed program that makes it so of the example's
declare -A SPOILT=(
    ["no head line"]='1d'
    ["a word of no answer"]='3s/,transfer,/,given,/'
    ["a transfer that costs cents"]='3s/,transfer,0,/,transfer,300,/'
    ["a column too few"]='2s/,full,//'
    ["a line twice"]='3p'
    ["a cap without a name"]='2s/,full,/,cap-cut,/'
    ["a cap with a digit in its name"]='2s/,full,/,cap-cut:day2,/'
    ["a paid ride that a cap freed"]='2s/,full,/,cap:day,/'
    ["a paid transfer without a window"]='3s/,transfer,0,,,,transfer,/,transfer,25,,,,transfer-fare,/'
    ["a free transfer with a window"]="3s/,transfer,0,,,,/,transfer,0,$spoilt_window,,/"
    ["a whole fare of nothing"]="3s/,transfer,0,,,,transfer,/,transfer,0,$spoilt_window,,transfer-fare,/"
    ["a capped transfer that costs cents"]="3s/,0,,,,transfer,/,25,$spoilt_window,,transfer-capped,/"
    ["a transfer with a ride's reason"]="3s/,0,,,,transfer,/,25,$spoilt_window,,cap-cut:day,/"
)

# the same of the columns of the example's traced ledger
declare -A SPOILT_TRACE=(
    ["a tap of an upload twice"]='4s/,3$/,2/'
    ["a class with a blank"]='2s/,full,0,1$/,fu ll,0,1/'
    ["a class with no name"]='2s/,full,0,1$/,,0,1/'
    ["a place that is no number"]='2s/,0,1$/,0,x/'
    ["no place"]='2s/,0,1$/,0/'
    ["an upload below 0"]='2s/,0,1$/,-1,1/'
)

# refuse_spoilt LEDGER: gives each spoilt ledger to `refused NAME`, which the script has
refuse_spoilt() {
    local name
    for name in "${!SPOILT[@]}"; do
        sed "${SPOILT[$name]}" "$1" | refused "$name"
    done
}

# refuse_spoilt_trace LEDGER: the same of a traced ledger
refuse_spoilt_trace() {
    local name
    for name in "${!SPOILT_TRACE[@]}"; do
        sed "${SPOILT_TRACE[$name]}" "$1" | refused "$name"
    done
}

# What is wrong with a ledger that loads: the question that finds it, a bar, and the program for
# sed -E that makes it so of the example's.
declare -A PLANTED=(
    ["a cent too many"]='cents|2s/,300,/,301,/'
    ["a paid ride of no cents"]='cents|2s/,300,/,0,/'
    ["a ride that is free too early"]='cents|4s/,paid,300,/,capped,0,/; 4s/,2,full,/,2,ceiling,/'
    ["a ride past a limit that is not reached"]='limit|4s/,paid,300,/,capped,0,/
        4s/,2,full,/,,ride-limit,/'
    ["a transfer that is charged"]='should be|2h
        3{G; s/,transfer,0[^\n]*\n[^\n]*(,paid,[^\n]*),1,full,$/\1,2,full,/; }
        4s/,2,full,/,3,full,/'
    ["a transfer between modes without a pair"]='without a pair|3s/,2000,bus,/,1000,subway,/'
    ["a transfer after two hours and a millisecond"]='later after
        |2,4s/-08T17:00:00.000Z/-08T15:19:59.999Z/g
        2,4s/-15T17:00:00.000Z/-15T15:19:59.999Z/g'
    ["a second transfer of a ride"]='more transfers
        |4s/,paid,300,.*$/,transfer,0,,,,transfer,2024-03-08T17:00:00.000Z/'
    ["a window that ends a day early"]='the table gives|2,4s/2024-03-15T/2024-03-14T/'
    ["a validator of another mode"]='another mode|7s/,subway,/,bus,/'
    ["a line that is left out"]='left out|3d'
    ["a ride before its window"]='outside|2s/-08T17:00:00.000Z,1000/-08T16:00:00.000Z,1000/'
    ["a window within another"]='last one ends|4s/2024-03-08T17:00:00.000Z/2024-03-08T17:40:00.000Z/
        4s/,2,full/,1,full/'
    ["a ride with another number"]='numbered|4s/,2,full,/,3,full,/'
    ["a transfer of no ride"]='without its ride|3s/17:00:00.000Z$/17:00:00.001Z/'
    ["a transfer of an earlier ride"]='points at another|5s/17:40:00.000Z$/17:00:00.000Z/'
)

# the last line of keyed.csv, and nine more transfers of the same ride
ten_transfers='17{p'
for number in {6..14}; do
    ten_transfers+="; s/,$((number - 1)),2024/,$number,2024/"
    ten_transfers+="; s/10:$((number + 34))/10:$((number + 35))/; p"
done
ten_transfers+='; d}'

# the same of keyed.csv, the ledger of a table whose classes have all their keys
declare -A PLANTED_KEYED=(
    ["another mode's fare"]='cents|10s/,200,/,300,/'
    ["a free mode that is charged"]='cents|9s/,paid,0,/,paid,300,/'
    ["a cent above the ceiling"]='cents|6s/,100,/,101,/'
    ["a ride past the limit with a number"]='cents|8s/,,ride-limit,/,5,ceiling,/'
    ["a third transfer of a ride"]='more transfers
        |16s/,paid,200,.*$/,transfer,0,,,,transfer,2024-03-08T10:00:00.000Z/'
    ["a transfer of a class that has none"]='more transfers
        |12s/,paid,150,.*$/,transfer,0,,,,transfer,2024-03-08T08:00:00.000Z/'
    ["a transfer a millisecond after its minutes"]='later after
        |4s/:45:00.000Z/:45:00.001Z/'
    ["a ride within the minutes of the one before it"]='should be
        |17s/,transfer,0,.*$/,paid,200,2024-03-08T10:00:00.000Z,2024-03-15T10:00:00.000Z,3,full,/'
    ["a rider with another class's fare"]='cents|11s/,150,/,300,/'
    ["ten transfers of a ride"]="more than nine|$ten_transfers"
)

# the same of a made week under a zone
declare -A PLANTED_ZONED=(
    ["a window that ends an hour early"]='one midnight
        |0,/,1,full,$/s/05:00:00.000Z,1,full,$/04:00:00.000Z,1,full,/'
    ["a stale tap that is not stale"]='later than what
        |0,/,stale,0,/s/(,stale,0,,,,stale,).*$/\12025-01-01T00:00:00.000Z/'
)
