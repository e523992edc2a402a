#!/usr/bin/env bash
# Runs the gate, or `rt ci NAME..`, and then prints how many processor seconds the proof, the tests and the edits of each crate
# took, the slowest crate first. Only what is done anew takes time; with --anew that is everything.
#
#   tools/gate_times.sh [--anew] [NAME..]
#
# rt prints no times, so the processes of its prover are looked at twice a second: a check's last half second may be missing. The
# log that is named at the end has rt's output, each line with the seconds since the start. The status is rt's.
set -u
cd "$(dirname "$0")/.." || exit 1
log=$(mktemp "${TMPDIR:-/tmp}/gate_times.XXXXXX") || exit 1
ticks=$(getconf CLK_TCK)
# By check (its process and when that began): its crate and purpose, and the ticks that it has taken.
declare -A label spent

stamp() {
    while IFS= read -r line; do
        printf '%6d %s\n' "$SECONDS" "$line"
    done
}

# Whether process $1 was started by the gate, directly or not.
is_of_gate() {
    local at=$1 line fields
    while [ "$at" -gt 1 ]; do
        [ "$at" = "$gate" ] && return 0
        { read -r line <"/proc/$at/stat"; } 2>/dev/null || return 1
        read -ra fields <<<"${line##*) }"
        at=${fields[1]}
    done
    return 1
}

# Prints the crate that process $1 checks, and for what.
label_of() {
    local words name='' kind=proof i
    mapfile -d '' -t words <"/proc/$1/cmdline"
    for ((i = 0; i < ${#words[@]}; i++)); do
        case ${words[i]} in
            --crate-name) name=${words[i + 1]} ;;
            --test) kind=tests ;;
        esac
    done
    # An edit is tried on a copy of the crate.
    case $(readlink "/proc/$1/cwd") in
        */rt-edit-*) kind=edits ;;
    esac
    echo "${name:--} $kind"
}

# Adds up what each check of the gate has taken so far, including the workers that it started.
look() {
    local file line fields key pid
    local -A working=() taken=()
    for file in /proc/[0-9]*/stat; do
        { read -r line <"$file"; } 2>/dev/null || continue
        case $line in
            *' (antt-kernel) '*)
                read -ra fields <<<"${line##*) }"
                working[${fields[1]}]=$((${working[${fields[1]}]:-0} + fields[11] + fields[12]))
                ;;
            *' (rattle) '*)
                read -ra fields <<<"${line##*) }"
                pid=${line%% *}
                key=$pid:${fields[19]}
                if [ -z "${label[$key]:-}" ]; then
                    is_of_gate "$pid" || continue
                    label[$key]=$(label_of "$pid" 2>/dev/null)
                fi
                taken[$key]=$((fields[11] + fields[12] + fields[13] + fields[14]))
                ;;
        esac
    done
    for key in "${!taken[@]}"; do
        spent[$key]=$((taken[$key] + ${working[${key%%:*}]:-0}))
    done
}

SECONDS=0
rt ci "$@" > >(stamp >"$log") 2>&1 </dev/null &
gate=$!
trap 'kill "$gate" 2>/dev/null; exit 130' INT TERM
while kill -0 "$gate" 2>/dev/null; do
    look
    sleep 0.5
done
wait "$gate"
status=$?

for key in "${!spent[@]}"; do
    echo "${label[$key]} ${spent[$key]}"
done | awk -v ticks="$ticks" '
    $1 != "-" { time[$1, $2] += $3 / ticks; crates[$1] += $3 / ticks; sum[$2] += $3 / ticks; all += $3 / ticks }
    END {
        printf "%-18s %7s %7s %7s %7s\n", "seconds of", "proof", "tests", "edits", "all"
        fflush()
        row = "%-18s %7d %7d %7d %7d\n"
        for (it in crates) printf row, it, time[it, "proof"], time[it, "tests"], time[it, "edits"], crates[it] | "sort -k5,5nr"
        close("sort -k5,5nr")
        printf row, "all", sum["proof"], sum["tests"], sum["edits"], all
    }'
sed -n '$s/^ *[0-9]* //p' "$log"
echo "$SECONDS seconds; the log is $log"
exit "$status"
