# Sourced by the bash scripts that start processes.
# shellcheck shell=bash disable=SC2046

# end_all PID..: kills these and all that they started, by their ids
end_all() {
    kill -KILL $(all_of "$@") 2> /dev/null || true
}
all_of() {
    local it
    for it in "$@"; do
        echo "$it"
        all_of $(ps -o pid= --ppid "$it")
    done
}
