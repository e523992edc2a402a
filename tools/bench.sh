#!/bin/sh
# Measures the time and the greatest memory of a hibernation and of a resume of 32,000 page frames, on a machine with 65,536 of them and 131,072
# slots, over files, beside a synced copy of as many bytes (with python3). Does the same for an export and an import of the image as a stream;
# for `swsusp_image check` and `stream` beside a reading and a copy of the saved dump; and for `swsusp_image page` over a compressed image beside
# a C program that expands it by liblzo2 (tools/bench_lzo.c, if that library is installed). Each of the first four, and a script's cycle, is
# measured beside a C program that does the same work (tools/bench.c, if there is a cc): what both leave must be the same, byte for byte. The
# system calls of the four are counted, if there is an strace. Then valgrind's callgrind counts the instructions of the built program: for an
# empty script, for a line that claims a page frame, for a line that shows a word, for the parse of that line only, and for a hibernation and
# a resume of 1,500 page frames. Last it measures the time of a boot, a hibernation and a resume of 15,000 page frames at a script's limits. The
# programs are the first and the second word, or crates/swsusp/out/swsusp and crates/swsusp_image/out/swsusp_image, which `rt run` leaves.
# Each of the first four commands is counted too, with 3,000 page frames, beside the C program. Without valgrind it says so and counts nothing.
set -u
top=$(cd "$(dirname "$0")/.." && pwd)
program=${1:-$top/crates/swsusp/out/swsusp}
image=${2:-$top/crates/swsusp_image/out/swsusp_image}
for built in "$program" "$image"; do
    if [ ! -x "$built" ]; then
        echo "$built isn't built: rt run in its folder below crates/ builds it"
        exit 1
    fi
done
room=$(mktemp -d)
trap 'trap "" PIPE HUP INT TERM; rm -rf "$room"' EXIT
trap 'exit 1' PIPE HUP INT TERM

# Prints the seconds that a command takes from this input to this output, its greatest memory in MiB, and its processor seconds. The memory is
# read while it runs: what the system counts for a child that has ended includes its parent's, from before the child's own program.
measure() {
    python3 -c '
import re, resource, subprocess, sys, time
most = 0
begin = time.monotonic()
with open(sys.argv[1], "rb") as source, open(sys.argv[2], "wb") as target:
    child = subprocess.Popen(sys.argv[3:], stdin=source, stdout=target)
    while child.poll() is None:
        try:
            with open(f"/proc/{child.pid}/status") as status:
                found = re.search(r"VmHWM:\s+(\d+) kB", status.read())
        except OSError:
            found = None
        most = max(most, int(found.group(1)) if found else 0)
        time.sleep(0.002)
seconds = time.monotonic() - begin
if child.returncode != 0:
    sys.exit(child.returncode)
used = resource.getrusage(resource.RUSAGE_CHILDREN)
print("%.3f %d %.3f" % (seconds, -(-most // 1024), used.ru_utime + used.ru_stime))
' "$@"
}

# Prints what a command took beside a copy. The arguments are its name, then the seconds and the memory of both.
beside() {
    awk -v name="$1" -v own="$2" -v copy="$3" 'BEGIN {
        split(own, a); split(copy, b)
        printf "%s: %.2f s, a copy of as many bytes %.2f s, ratio %.1f, %d MiB of memory\n", name, a[1], b[1], a[1] / (b[1] > 0.01 ? b[1] : 0.01), a[2]
    }'
}

# Prints what a command took beside the C program, which did the same work, and checks that both left the same.
against() {
    [ -x "$room/bench" ] || return 0
    cmp -s "$3" "$4" || { echo "$3 isn't what the C program leaves"; exit 1; }
    awk -v own="$1" -v c="$2" 'BEGIN {
        split(own, a); split(c, b)
        printf "  in C %.2f s, ratio %.2f; %.2f s of a processor, in C %.2f s, ratio %.2f; %d MiB, in C %d MiB\n",
            b[1], a[1] / b[1], a[3], b[3], a[3] / b[3], a[2], b[2]
    }'
}

if command -v cc >/dev/null; then
    cc -O2 -Wall -Wextra -Werror -std=c11 -D_DEFAULT_SOURCE -o "$room/bench" "$top/tools/bench.c" || exit 1
else
    echo "not measured beside C: no cc is there"
fi

# Prints the system calls that a command makes from this input to this output, the most frequent first.
calls() {
    command -v strace >/dev/null || return 0
    name=$1 source=$2 target=$3
    shift 3
    strace -f -c -o "$room/calls" "$@" <"$source" >"$target" || exit 1
    awk '$1 ~ /^[0-9.]+$/ && $NF != "total" { print $4, $NF }' "$room/calls" | sort -rn |
        awk -v name="$name" 'NR <= 4 { told = told sep $0; sep = ", " } NR > 4 { rest += $1 }
            END { printf "system calls, %s: %s, and %d others\n", name, told, rest }'
}

# Measures the C program, if there is one.
in_c() {
    [ ! -x "$room/bench" ] || measure "$@"
}

# The tables take 192 page frames of the 32,000.
sh "$top/tools/make_area.sh" "$room/area" 131071
python3 "$top/tools/make_dump.py" saved 31808 >"$room/saved"
python3 "$top/tools/make_dump.py" loader 31808 >"$room/loader"
sync
copy=$(measure /dev/null "$room/line" sh -c "cp '$room/saved' '$room/copy' && sync '$room/copy'")
own=$(measure "$room/saved" "$room/line" "$program" hibernate "$room/area")
beside "$(cat "$room/line")" "$own" "$copy"
sh "$top/tools/make_area.sh" "$room/area_c" 131071
sync
c=$(in_c "$room/saved" "$room/line" "$room/bench" hibernate "$room/area_c")
against "$own" "$c" "$room/area" "$room/area_c"
copy=$(measure /dev/null /dev/null cat "$room/saved")
own=$(measure /dev/null "$room/line" "$image" check "$room/area")
beside "checked, $(cat "$room/line")" "$own" "$copy"
copy=$(measure /dev/null "$room/copy" cat "$room/saved")
own=$(measure /dev/null "$room/stream" "$image" stream "$room/area")
beside "streamed, $(($(wc -c <"$room/stream"))) bytes" "$own" "$copy"
own=$(measure "$room/loader" "$room/restored" "$program" resume "$room/area")
sync
copy=$(measure /dev/null "$room/line" sh -c "cp '$room/restored' '$room/copy' && sync '$room/copy'")
beside "resumed, a dump of $(($(wc -c <"$room/restored"))) bytes" "$own" "$copy"
c=$(in_c "$room/loader" "$room/copy" "$room/bench" resume "$room/area_c")
against "$own" "$c" "$room/restored" "$room/copy"
own=$(measure "$room/saved" "$room/stream" "$program" export)
copy=$(measure /dev/null "$room/line" cp "$room/stream" "$room/copy")
beside "exported, a stream of $(($(wc -c <"$room/stream"))) bytes" "$own" "$copy"
c=$(in_c "$room/saved" "$room/copy" "$room/bench" export)
against "$own" "$c" "$room/stream" "$room/copy"
sh "$top/tools/make_area.sh" "$room/area" 131071
sync
copy=$(measure /dev/null "$room/line" sh -c "cp '$room/stream' '$room/copy' && sync '$room/copy'")
own=$(measure "$room/stream" "$room/line" "$program" import "$room/area")
beside "$(cat "$room/line")" "$own" "$copy"
sh "$top/tools/make_area.sh" "$room/area_c" 131071
sync
c=$(in_c "$room/stream" "$room/line" "$room/bench" import "$room/area_c")
against "$own" "$c" "$room/area" "$room/area_c"
sh "$top/tools/make_area.sh" "$room/area" 131071
calls hibernated "$room/saved" /dev/null "$program" hibernate "$room/area"
calls resumed "$room/loader" "$room/restored" "$program" resume "$room/area"
calls exported "$room/saved" "$room/stream" "$program" export
calls imported "$room/stream" /dev/null "$program" import "$room/area"
rm -f "$room/area" "$room/area_c" "$room/saved" "$room/loader" "$room/restored" "$room/stream" "$room/copy"

# A compressed image of as many page frames, which hold the program's own bytes. `page` reads the whole image and expands each unit once, and so
# does the C program, by the safe decompressor of liblzo2.
if command -v cc >/dev/null && cc -O2 -Wall -Wextra -Werror -std=c11 -D_DEFAULT_SOURCE -o "$room/bench_lzo" "$top/tools/bench_lzo.c" -llzo2 2>/dev/null; then
    sh "$top/tools/make_area.sh" "$room/area" 131071
    python3 "$top/tools/make_dump.py" saved 31808 131072 "$program" | "$program" hibernate "$room/area" >"$room/line" || exit 1
    "$room/bench_lzo" pack "$room/area" "$room/packed" || exit 1
    rm -f "$room/area"
    own=$(measure /dev/null "$room/page" "$image" page "$room/packed" 1024)
    c=$(measure /dev/null "$room/copy" "$room/bench_lzo" page "$room/packed" 1024)
    copy=$(measure /dev/null /dev/null cat "$room/packed")
    beside "a page of a compressed image of $(($(wc -c <"$room/packed"))) bytes" "$own" "$copy"
    against "$own" "$c" "$room/page" "$room/copy"
    own=$(measure /dev/null "$room/line" "$image" check "$room/packed")
    beside "compressed and checked, $(cat "$room/line")" "$own" "$copy"
    own=$(measure /dev/null "$room/stream" "$image" stream "$room/packed")
    beside "compressed and streamed, $(($(wc -c <"$room/stream"))) bytes" "$own" "$copy"
    rm -f "$room/packed" "$room/page" "$room/stream" "$room/copy"
else
    echo "not measured beside liblzo2: no cc or no liblzo2 is there"
fi

if ! command -v valgrind >/dev/null; then
    echo "not counted: valgrind isn't there"
    exit 0
fi

# Prints a command $1 times; the word FRAME stands for a page frame, another one in each line.
lines() {
    awk -v n="$1" -v text="$2" 'BEGIN { for (i = 0; i < n; i++) { line = text; sub(/FRAME/, 16 + i, line); print line } }'
}

# Counts the instructions of a command. On a processor with fast string instructions the C library would fill memory by one that valgrind
# counts byte for byte, so it is told not to.
instructions() {
    GLIBC_TUNABLES=glibc.cpu.hwcaps=-ERMS valgrind --tool=callgrind --callgrind-out-file=/dev/null "$@" 2>&1 >/dev/null |
        sed -n 's/.*Collected *: *//p'
}

count() {
    instructions "$program" replay <"$room/$1"
}

# Prints the instructions of a command on $2 beside those of the C program. The words after these are the command's, where AREA is an area of its own.
# What standard output got stays in the file $1.
beside_c() {
    left=$1 source=$2
    shift 2
    for who in own c; do
        made=$program
        [ "$who" = own ] || made=$room/bench
        GLIBC_TUNABLES=glibc.cpu.hwcaps=-ERMS valgrind --tool=callgrind --callgrind-out-file=/dev/null "$made" \
            $(printf '%s ' "$@" | sed "s|AREA|$room/image_$who|") 2>"$room/counted" <"$source" >"$left" || exit 1
        eval "$who=$(sed -n 's/.*Collected *: *//p' "$room/counted")"
    done
    awk -v name="$1" -v own="$own" -v c="$c" 'BEGIN { printf "%s of 3000 page frames: %d instructions, in C %d, ratio %.2f\n", name, own, c, own / c }'
}

if [ -x "$room/bench" ]; then
    python3 "$top/tools/make_dump.py" saved 3000 >"$room/saved"
    python3 "$top/tools/make_dump.py" loader 3000 >"$room/loader"
    for who in own c; do sh "$top/tools/make_area.sh" "$room/image_$who" 131071; done
    beside_c "$room/line" "$room/saved" hibernate AREA
    beside_c "$room/restored" "$room/loader" resume AREA
    beside_c "$room/stream" "$room/saved" export
    for who in own c; do sh "$top/tools/make_area.sh" "$room/image_$who" 131071; done
    beside_c "$room/line" "$room/stream" import AREA
fi

# 1,500 page frames of a task and the 7 of the tables: 1,511 pages, 3 maps, and 4 steps more.
steps=1518
: >"$room/empty"
{ printf 'boot\nsteps core 2\n' && lines 1500 'claim 1 FRAME'; } >"$room/claims"
{ cat "$room/claims" && printf 'hibernate\nsteps core %d\nresume\nsteps core %d\n' $steps $steps; } >"$room/cycle"
{ printf 'boot\nsteps core 2\nclaim 1 16\n'; } >"$room/one"
{ cat "$room/one" && lines 10000 'show 1 16 3'; } >"$room/shows"
# A script is parsed as a whole before it is played, so a script whose last line is invalid is only parsed.
{ cat "$room/one" && echo none; } >"$room/one_parsed"
{ cat "$room/shows" && echo none; } >"$room/shows_parsed"

empty=$(count empty)
claims=$(count claims)
cycle=$(count cycle)
one=$(count one)
shows=$(count shows)
one_parsed=$(count one_parsed)
shows_parsed=$(count shows_parsed)
echo "an empty script: $empty instructions"
echo "a claim: $(((claims - one) / 1499))"
echo "a show: $(((shows - one) / 10000)), of these its parse: $(((shows_parsed - one_parsed) / 10000))"
echo "a hibernation and a resume of 1500 page frames: $((cycle - claims))"
if [ -x "$room/bench" ]; then
    "$room/bench" cycle 1500 >"$room/c" && "$program" replay <"$room/cycle" >"$room/own" && cmp "$room/own" "$room/c" || exit 1
    none=$(instructions "$room/bench" claims 1500)
    all=$(instructions "$room/bench" cycle 1500)
    awk -v own=$((cycle - claims)) -v c=$((all - none)) 'BEGIN { printf "  in C, which prints the same, %d, ratio %.2f\n", c, own / c }'
fi
"$program" replay <"$room/cycle" | tail -n 1

# 65,536 page frames in 8 zones and 16,384 slots. The 80 page frames of the tables and two regions are saved: 15,031 pages and 30 maps.
{
    for zone in 0 1 2 3 4 5 6 7; do echo "zone $((8192 * zone)) 8192"; done
    printf 'area 16383\nregion 80 8112 0\nregion 8192 6808 0\n'
    printf 'boot\nsteps core 2\nhibernate\nsteps core 15065\nresume 0-1000\nsteps core 15065\n'
} >"$room/limits"
begin=$(date +%s%N)
"$program" replay <"$room/limits" | tail -n 1
echo "at a script's limits: $((($(date +%s%N) - begin) / 1000000)) ms"

# Each of 16,383 slots is taken by an out, given back by an in, in scattered order, and taken again: 98,298 events with their steps.
{
    printf 'area 16383\nboot\nsteps core 2\nclaim 3 1000\n'
    awk 'BEGIN {
        for (i = 0; i < 16383; i++) print "out 3 1000\nstep 3"
        for (i = 0; i < 16383; i++) print "in 3 " (7919 * i) % 16383 + 1 " 1000\nstep 3"
        for (i = 0; i < 16383; i++) print "out 3 1000\nstep 3"
    }'
} >"$room/swaps"
begin=$(date +%s%N)
"$program" replay <"$room/swaps" | tail -n 1
echo "tasks that swap, 98,298 events: $((($(date +%s%N) - begin) / 1000000)) ms"
