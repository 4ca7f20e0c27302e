#!/usr/bin/env bash
# A step of continuous integration: compiles Java sources, asks whether all that they use is there, runs them under all schedules
# with at most two departures from a default, and then under random ones. Explains the first run that shows something: a cycle,
# an uncaught exception, a status that isn't Finished.
#
#     examples/ci/check.sh JVMX ENTRY SPEC JOBS SOURCE..
#
# JVMX is the built program, ENTRY the main class, SPEC the specification, JOBS the number of random schedules. Needs the Eclipse
# compiler, ecj. The exit status is 0 if nothing is missing and no run shows something, 1 if something is found, 2 or 3 if
# something is refused.
set -euo pipefail

if (($# < 5)); then
    sed -n '2,11s/^# \{0,1\}//p' "$0" >&2
    exit 2
fi
jvmx=$1 entry=$2 spec=$3 jobs=$4
shift 4
out=$(mktemp -d)
trap 'rm -rf "$out"' EXIT

# Prints the schedule that an exploration shows as failing, if it shows one.
failing_schedule() {
    awk '$1 == "failing" { print $2 }' "$out/answer"
}

# Prints the schedule of the first job with a cycle or a status that isn't Finished. The campaign's table is in a file.
first_in_table() {
    awk '$1 == "job" && ($3 == "cycle" || !/ status Finished /) { print "seed:0:" $2; exit }' "$out/table"
}

# Prints the schedule of the first job whose run ends with 1. A campaign doesn't report uncaught exceptions, a run does.
first_by_run() {
    for ((k = 0; k < jobs; k++)); do
        "$jvmx" run --entry "$entry" --sched "seed:0:$k" "${files[@]}" >/dev/null 2>&1 || { echo "seed:0:$k"; return; }
    done
}

# Calls jvmx with its output in a file, and prints the output's last line. Ends the script if something is refused.
call() {
    local file=$1 status=0
    shift
    "$jvmx" "$@" "${files[@]}" >"$file" || status=$?
    ((status < 2)) || exit "$status"
    tail -n 1 "$file"
}

# Explains the run of a schedule, and ends the script.
explain() {
    echo "by --sched $1:"
    "$jvmx" run --entry "$entry" --spec "$spec" --sched "$1" --explain "${files[@]}" || true
    exit 1
}

ecj -proc:none -source 1.5 -target 1.5 -d "$out/classes" "$@" || exit 2
mapfile -d '' -t files < <(find "$out/classes" -name '*.class' -print0 | sort -z)
"$jvmx" needs --spec "$spec" "${files[@]}"
call "$out/answer" explore --entry "$entry" --spec "$spec" --departures 2
schedule=$(failing_schedule)
[[ ! $schedule ]] || explain "$schedule"
call "$out/table" campaign --entry "$entry" --spec "$spec" --jobs "$jobs" --stop
schedule=$(first_in_table)
[[ $schedule ]] || schedule=$(first_by_run)
[[ ! $schedule ]] || explain "$schedule"
