# Helpers of the benchmark scripts. A script sources this file, has each of its rows measured, and
# ends with `finish`. A row checks how the program ends and what it answers, so that a crash or a
# wrong answer fails it.
#
# PROGRAM is the program to measure; where it isn't set, the repository's own, which ./replay builds
# where that is due. RUNS is how often a row is run, 5 where nothing is said. ARGUMENTS has what the
# program is given on its command line; a script sets it before a row. Of a row that is twice as
# large as one before it the column "to half" says how many times as long it took; nothing fails by
# a time.
set -u
top=$(cd "$(dirname "${BASH_SOURCE[0]}")/.." && pwd)
runs=${RUNS:-5}
wrong=0
ARGUMENTS=()
# (in memory where that can be had, so that no disk is measured)
folder=$(TMPDIR=$([ -w /dev/shm ] && echo /dev/shm || echo "${TMPDIR:-/tmp}") mktemp -d) || exit 1
trap 'rm -rf "$folder"' EXIT

if [ -z "${PROGRAM:-}" ]; then
    PROGRAM=$top/crates/vk_replay/out/vk_replay
    "$top/replay" <"$top/examples/first_upload.json" >"$folder/answer" || exit 1
fi

# FILE COMMAND..: runs the command, and writes its peak of memory in kilobytes to the file, or '-'
# where nothing here measures it.
if /usr/bin/time -f %M true 2>/dev/null >&2; then
    with_peak() {
        local file=$1
        shift
        /usr/bin/time -o "$file" -f %M "$@"
    }
elif python3 -c 'import os; os.wait4' 2>/dev/null; then
    # (never below the 13 megabytes or so of python3 itself)
    with_peak() {
        python3 -c 'import os, sys
pid = os.posix_spawn(sys.argv[2], sys.argv[2:], os.environ)
_, status, used = os.wait4(pid, 0)
print(used.ru_maxrss, file=open(sys.argv[1], "w"))
sys.exit(os.WEXITSTATUS(status) if os.WIFEXITED(status) else 128 + os.WTERMSIG(status))' "$@"
    }
else
    with_peak() {
        echo - >"$1"
        shift
        "$@"
    }
fi

# Sets `moment` to the microseconds since some moment in the past.
now() {
    moment=${EPOCHREALTIME:-$(date +%s.%6N)}
    moment=${moment/[.,]/}
}

# What the program is to say on standard error where it ends with a status.
complaint_of() {
    [ "$1" -ne 2 ] || echo "no trace"
}

# STATUS ANSWER: what is wrong with the run that just ended with `ended`, if anything is.
what_is_wrong() {
    if [ "$ended" -ne "$1" ]; then
        echo "WRONG: status $ended, and not $1"
    elif ! $2 | cmp -s - "$folder/answer"; then
        echo "WRONG: the answer differs; it begins $(head -n 1 "$folder/answer" | head -c 40)"
    elif ! complaint_of "$1" | cmp -s - "$folder/complaint"; then
        echo "WRONG: it complains: $(head -n 1 "$folder/complaint" | head -c 60)"
    fi
}

# NAME STATUS ANSWER TRACE..: a row. TRACE is a command that prints the trace, ANSWER one, in one
# word, that prints what the program is to write for it, and STATUS how the program is to end.
row() {
    local name=$1 status=$2 answer=$3 best= processor= wrong_with= run from
    shift 3
    "$@" >"$folder/trace"
    for run in $(seq "$runs"); do
        local started=()
        [ "$run" -ne 1 ] || started=(with_peak "$folder/peak")
        now
        from=$moment
        "${started[@]}" "${taking[@]}" "$PROGRAM" "${ARGUMENTS[@]}" \
            <"$folder/trace" >"$folder/answer" 2>"$folder/complaint"
        ended=$?
        now
        spend processor
        if [ -z "$best" ] || [ $((moment - from)) -lt "$best" ]; then
            best=$((moment - from))
        fi
        wrong_with=$(what_is_wrong "$status" "$answer")
        [ -z "$wrong_with" ] || break
    done
    [ -z "$wrong_with" ] || wrong=$((wrong + 1))
    to_half "$name" "${processor:-$best}"
    print_row "$name" "$(wc -c <"$folder/trace")" "$(milliseconds "$best")" "$ratio" \
        "$(mebibytes "$(tail -n 1 "$folder/peak")")" "$ended" "${wrong_with:-as wanted}"
}

milliseconds() {
    awk -v us="$1" 'BEGIN { printf "%.1f", us / 1000 }'
}

# The kilobytes that `with_peak` wrote, or its '-'.
mebibytes() {
    awk -v kb="$1" 'BEGIN { if (kb == "-") print kb; else printf "%.1f", kb / 1024 }'
}

# DIVIDEND DIVISOR: their quotient, or '-' where there is none.
quotient() {
    awk -v a="$1" -v b="$2" 'BEGIN { if (b > 0) printf "%.2f", a / b; else print "-" }'
}

# NAME TIME: sets `ratio` to how many times as long this took as a row of half its size before it did,
# or to nothing where there was none: one with the same name, but for a number that is half as large.
# Time is that of the processor, where it is known.
declare -A time_of
to_half() {
    local before= rest=$1 number half
    ratio=
    time_of[$1]=$2
    while [[ $rest =~ ^([^0-9]*)([0-9]+)(.*)$ ]]; do
        before+=${BASH_REMATCH[1]}
        number=${BASH_REMATCH[2]}
        rest=${BASH_REMATCH[3]}
        if [ $((number % 2)) -eq 0 ]; then
            half=${time_of[$before$((number / 2))$rest]:-}
            [ -z "$half" ] || ratio=$(quotient "$2" "$half")
        fi
        before+=$number
    done
}

# Keeps this script, and what it starts from now on, on one core where that can be had.
stay_on_one_core() {
    local core
    command -v taskset >/dev/null || return 0
    core=$(taskset -cp $$ | sed 's/.*[^0-9]//')
    taskset -cp "$core" $$ >/dev/null
}

# Compiles a program that takes the processor's time of a command, or answers 1 where there is no C
# compiler.
compile_took() {
    local compiler
    compiler=$(command -v cc || command -v gcc || command -v clang) || return 1
    "$compiler" -O2 -x c -o "$folder/took" - <<'END'
#define _DEFAULT_SOURCE
#include <stdio.h>
#include <sys/resource.h>
#include <sys/wait.h>
#include <unistd.h>

int main(int count, char **arguments) {
    if (count < 3) return 2;
    pid_t child = fork();
    if (child == 0) {
        execvp(arguments[2], arguments + 2);
        _exit(127);
    }
    int status;
    struct rusage used;
    FILE *file = fopen(arguments[1], "w");
    if (child < 0 || !file || wait4(child, &status, 0, &used) < 0) return 126;
    fprintf(file, "%lld\n", (used.ru_utime.tv_sec + used.ru_stime.tv_sec) * 1000000LL +
        used.ru_utime.tv_usec + used.ru_stime.tv_usec);
    return WIFEXITED(status) ? WEXITSTATUS(status) : 128 + WTERMSIG(status);
}
END
}

# Before a command: leaves in the file `spent` the microseconds of processor that the command takes,
# in which other programs have less part than in the time by the clock.
taking=()
! compile_took || taking=("$folder/took" "$folder/spent")

# VARIABLE: sets it to the microseconds of processor of the last run where they are known, and fewer.
spend() {
    local -n least=$1
    local spent
    [ "${#taking[@]}" -ne 0 ] || return 0
    spent=$(cat "$folder/spent")
    [ -n "$least" ] && [ "$least" -le "$spent" ] || least=$spent
}

# VARIABLE COMMAND..: runs the command, and does the same. What the command writes is in `answer`,
# and its status in `ended`.
took() {
    "${taking[@]}" "${@:2}" >"$folder/answer" 2>"$folder/complaint"
    ended=$?
    spend "$1"
}

print_row() {
    printf '%-28s %10s %14s %7s %10s %7s  %s\n' "$@"
}

# A barrier that makes what transfers wrote visible to the host.
to_host='["barrier",[[4096,4096,16384,8192]],[],[]]'

# ENTRY WORD: that the read of this entry answers the word.
answers() {
    awk -v entry="$1" -v word="$2" 'BEGIN {
        printf "%d %02x%02x%02x%02x\n", entry, word % 256, int(word / 256) % 256,
            int(word / 65536) % 256, int(word / 16777216)
    }'
}

# The line above the rows.
heading() {
    print_row trace bytes "best of $runs, ms" "to half" "peak, MiB" status ""
}

# Ends the script: with 1 where a row was wrong.
finish() {
    [ "$wrong" -ne 0 ] || exit 0
    echo "$wrong wrong"
    exit 1
}
