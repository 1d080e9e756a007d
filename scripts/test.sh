#!/usr/bin/env bash
# Runs every check of the repository, each to its end, and adds up what they count.
#
# The last line is 'N passed, M failed'. The exit status is 0 only if M is 0. Above it stands what each
# kind of work took. ODS1_SEED and ODS1_CASES reach the comparisons of library and model, for a long
# run.

set -u -o pipefail
cd "$(dirname "${BASH_SOURCE[0]}")/.." || exit 1

# One case alone is for a run by hand: here every case is run.
unset ODS1_CASE

# Where cargo's own installer puts it, if nothing else says where it is.
command -v cargo >/dev/null || PATH="$PATH:${CARGO_HOME:-${HOME:-/}/.cargo}/bin"

passed=0
failed=0
log=$(mktemp) || exit 1
trap 'rm -f "$log"' EXIT

# cpu_of PID: sets $cpu to the hundredths of a second that a process and its ended children have
# spent on the processors.
cpu_of() {
    local line fields
    read -r line 2>/dev/null <"/proc/$1/stat" || return
    read -r -a fields <<<"${line##*) }"
    cpu=$((fields[11] + fields[12] + fields[13] + fields[14]))
}

# clock: sets $now to the hundredths of a second that the clock shows.
clock() {
    now=${EPOCHREALTIME//[!0-9]/}
    now=$((now / 10000))
}

# What each kind of work took, in hundredths of a second: by the clock, and on the processors.
declare -A took=() spent=()
kinds=(proofs 'wrong programs' builds tests 'the rest')
clock
cpu_of $$
counted_to=$now
counted_cpu=$cpu
load=$(cut -d ' ' -f 1 /proc/loadavg)

# count_as KIND [CPU]: counts the time since the last call as spent on this kind of work. CPU is what
# was spent on the processors so far, if this script's own time does not have it yet.
count_as() {
    clock
    if (($# == 2)); then cpu=$2; else cpu_of $$; fi
    took[$1]=$((${took[$1]:-0} + now - counted_to))
    spent[$1]=$((${spent[$1]:-0} + cpu - counted_cpu))
    counted_to=$now
    counted_cpu=$cpu
}

# seconds HUNDREDTHS: prints them as seconds.
seconds() {
    printf '%d.%d' "$(($1 / 100))" "$(($1 % 100 / 10))"
}

# show_times: prints what each kind of work took.
show_times() {
    local kind wall=0 cpu=0
    printf '%-16s %10s %10s\n' '' 'wall, s' 'CPU, s'
    for kind in "${kinds[@]}"; do
        printf '%-16s %10s %10s\n' "$kind" "$(seconds "${took[$kind]:-0}")" "$(seconds "${spent[$kind]:-0}")"
        ((wall += ${took[$kind]:-0}, cpu += ${spent[$kind]:-0}))
    done
    printf '%-16s %10s %10s\n' all "$(seconds "$wall")" "$(seconds "$cpu")"
}

# heading TEXT: announces a part.
heading() {
    printf '\n== %s\n' "$1"
}

# run COMMAND..: runs a part, shows what it writes, keeps its standard output in the log and its
# exit status in $status.
run() {
    "$@" | tee "$log"
    status=${PIPESTATUS[0]}
}

# run_proofs: runs rt ci as run does, and tells by its lines when it has proved the crates, or taken
# what an earlier run proved of the same files, and when it has tried the wrong programs. It tries
# those beside the proofs, where a processor is free, and tells of all of them at the end: so what it
# tried until the last proof counts as proofs, and what it took from there on as wrong programs.
run_proofs() {
    local line lines kept pid before tried=
    cpu_of $$
    before=$cpu
    exec {kept}>"$log" {lines}< <(exec rt ci)
    pid=$!
    while IFS= read -r -u "$lines" line || [[ -n $line ]]; do
        printf '%s\n' "$line"
        printf '%s\n' "$line" >&"$kept"
        case $line in
        'rt: must-fail '*)
            tried=yes
            cpu_of "$pid" && count_as 'wrong programs' "$((before + cpu))"
            ;;
        'rt: '*' proved' | 'rt: '*' NOT PROVED'* | 'rt: '*' is kept: '*)
            [[ $tried ]] || { cpu_of "$pid" && count_as proofs "$((before + cpu))"; }
            ;;
        esac
    done
    exec {kept}>&- {lines}<&-
    wait "$pid"
    status=$?
}

# add NAME PASSED FAILED: adds what a part counted. A part that ended badly, or that tested
# nothing, has failed once even if it counted no failure.
add() {
    local name=$1 good=$2 bad=$3
    if ((bad == 0 && (status != 0 || good == 0))); then
        bad=1
    fi
    if ((bad > 0)); then
        printf '\n== %s FAILED (exit status %d)\n' "$name" "$status"
    fi
    ((passed += good, failed += bad))
    return 0
}

# add_status NAME: counts a part that is one check.
add_status() {
    add "$1" "$((status == 0))" 0
}

# add_last_line NAME: counts a part whose last line is 'N passed, M failed'.
add_last_line() {
    local last good=0 bad=0
    last=$(tail -n 1 "$log")
    if [[ $last =~ ^([0-9]{1,9})\ passed,\ ([0-9]{1,9})\ failed$ ]]; then
        good=$((10#${BASH_REMATCH[1]}))
        bad=$((10#${BASH_REMATCH[2]}))
    fi
    add "$1" "$good" "$bad"
}

# add_ci: counts rt ci by its last line, and as a failure each wrong program that rt could not apply or
# read. rt ci passes all the same, and tells how many in its line 'rt: ok; ..; must-fail edits: N refused,
# M bad; ..'. An rt ci that passes and has no such line has failed once: nothing is known of them.
add_ci() {
    local line bad=0 told= before=$failed
    add_last_line 'rt ci'
    while read -r line; do
        [[ $line =~ ^rt:\ ok.*\;\ must-fail\ edits:\ [0-9]+\ refused ]] && told=yes
        if [[ $line =~ ^rt:\ ok.*\;\ must-fail\ edits:[^\;]*,\ ([0-9]{1,9})\ bad ]]; then
            bad=$((10#${BASH_REMATCH[1]}))
        fi
    done <"$log"
    if ((failed == before)) && [[ ! $told ]]; then
        printf '\n== rt ci FAILED (it tells nothing of the wrong programs)\n'
        ((failed += 1))
    fi
    if ((bad > 0)); then
        printf '\n== rt ci FAILED (bad wrong programs: %d)\n' "$bad"
    fi
    ((failed += bad))
    return 0
}

# add_cargo NAME: counts a part by the lines 'test result: .. N passed; M failed; ..' of cargo.
add_cargo() {
    local line good=0 bad=0
    while read -r line; do
        if [[ $line =~ ^test\ result:\ [A-Za-z]+\.\ ([0-9]{1,9})\ passed\;\ ([0-9]{1,9})\ failed\; ]]; then
            ((good += 10#${BASH_REMATCH[1]}, bad += 10#${BASH_REMATCH[2]}))
        fi
    done <"$log"
    add "$1" "$good" "$bad"
}

# add_unittest NAME: counts a part by Python's lines 'Ran N tests ..', 'FAILED (failures=F, errors=E)'.
add_unittest() {
    local line good=0 bad=0
    while read -r line; do
        if [[ $line =~ ^Ran\ ([0-9]{1,9})\ tests?\  ]]; then
            good=$((10#${BASH_REMATCH[1]}))
        elif [[ $line =~ ^FAILED\ \((.*)\)$ ]]; then
            [[ $line =~ failures=([0-9]{1,9}) ]] && ((bad += 10#${BASH_REMATCH[1]}))
            [[ $line =~ errors=([0-9]{1,9}) ]] && ((bad += 10#${BASH_REMATCH[1]}))
        fi
    done <"$log"
    add "$1" "$((good > bad ? good - bad : 0))" "$bad"
}

# python_tests: builds what the Python bindings load, and runs their tests.
python_tests() (
    bindings/python/build.sh && cd bindings/python && python3 -m unittest 2>&1
)

# First, so that it meets the checkout as it is.
heading 'rt ci'
run_proofs
add_ci
count_as 'the rest'

heading 'this script, tried on parts that pass and fail'
run scripts/test_gate.sh
add_last_line 'scripts/test_gate.sh'
count_as 'the rest'

heading 'rt lib, in crates/ods1_c'
run scripts/library.sh
add_status 'rt lib'
library=$status
count_as builds

heading 'cargo fmt --check'
if cargo fmt --version >/dev/null 2>&1; then
    run cargo fmt --all --check
    add_status 'cargo fmt --check'
else
    printf 'left out: rustfmt is not installed\n'
fi
count_as 'the rest'

heading 'cargo test'
if ((library == 0)); then
    # A build that fails is told and counted by the second call.
    cargo test --release --offline --locked --no-run 2>/dev/null
    count_as builds
    run cargo test --release --offline --locked --no-fail-fast
    add_cargo 'cargo test'
else
    printf 'not run: there is no static library to test\n'
    status=1
    add 'cargo test' 0 1
fi

heading 'python3 -m unittest'
if ((library == 0)); then
    run python_tests
    add_unittest 'python3 -m unittest'
else
    printf 'not run: there is no static library to test\n'
    status=1
    add 'python3 -m unittest' 0 1
fi
count_as tests

heading "what it took, on $(nproc) cores with a load of $load before it"
show_times
printf '%s\n' 'Wrong programs that were tried beside the proofs count as proofs.'

printf '\n%d passed, %d failed\n' "$passed" "$failed"
((failed == 0))
