#!/usr/bin/env bash
# Tries scripts/test.sh, scripts/library.sh and .ci/run in a scratch repository, with commands that only
# pretend: what is counted where a part passes, fails, writes nothing or counts wrongly; how rt ci is
# run; which archive is tested; and what is told of the time.
#
# The last line is 'N passed, M failed'.

set -u -o pipefail
cd "$(dirname "${BASH_SOURCE[0]}")/.." || exit 1

scratch=$(mktemp -d) || exit 1
trap 'rm -rf "$scratch"' EXIT
repository=$scratch/repository
commands=$scratch/commands
passed=0
failed=0

mkdir -p "$repository"/{.ci,scripts,bindings/python,crates/ods1_c/src} "$commands"
cp .ci/run "$repository/.ci/run"
cp Makefile "$repository/Makefile"
cp scripts/{library,test}.sh "$repository/scripts"
printf 'ods1_c staticlib:\nimage:\n' >"$repository/crates.txt"
: >"$repository/crates/ods1_c/src/lib.rt"

# pretend FILE: writes a command, read from standard input.
pretend() {
    cat >"$1"
    chmod +x "$1"
}

pretend "$repository/scripts/test_gate.sh" <<'END'
#!/usr/bin/env bash
printf '%b' "${GATE_TEXT-2 passed, 0 failed\n}"
exit "${GATE_STATUS-0}"
END

pretend "$repository/scripts/setup.sh" <<'END'
#!/usr/bin/env bash
exit "${SETUP_STATUS-0}"
END

pretend "$repository/bindings/python/build.sh" <<'END'
#!/usr/bin/env bash
[[ $(cat target/staticlib/libods1.a) == new ]] || exit 98
exit "${PYTHON_BUILD_STATUS-0}"
END

pretend "$commands/python3" <<'END'
#!/usr/bin/env bash
[[ "$*" == '-m unittest' && ${PWD##*/} == python ]] || exit 99
printf '%b' "${PYTHON_TEXT-....\n----\nRan 50 tests in 1.0s\n\nOK\n}" >&2
exit "${PYTHON_STATUS-0}"
END

pretend "$commands/rt" <<'END'
#!/usr/bin/env bash
ok='rt: ok; handles allowed: none; must-fail edits: 3 refused; every proof and must-fail edit was done in this run\n'
case "$*" in
ci)
    [[ ${PWD##*/} == repository ]] || exit 97
    printf '%s\n' "${TMPDIR-none}" >"$RT_SEEN"
    find . -type f -printf '%P %s\n' | sort >>"$RT_SEEN"
    if [[ ${RT_CI_BUSY-} ]]; then
        timeout "$RT_CI_BUSY" sh -c 'while :; do :; done'
        printf 'rt: image: trying its must-fail edits (1)\n'
        printf '%b' "${RT_CI_PROVED-rt: image proved\n}"
        timeout "$RT_CI_BUSY" sh -c 'while :; do :; done'
        printf 'rt: must-fail image/block_of_two.edit: refused, as it must be: src/lib.rt:1:1: error\n'
        sleep 0.2
        printf 'rt: image ran, and wrote what its file stdout has\n'
    fi
    printf '%b' "${RT_CI_TEXT-${ok}10 passed, 0 failed\n}"
    exit "${RT_CI_STATUS-0}"
    ;;
lib)
    [[ $PWD == */repository/crates/ods1_c ]] || exit 97
    if [[ ${ARCHIVE-yes} == yes ]]; then
        mkdir -p out
        printf 'new\n' >out/libods1_c.a
    fi
    exit "${RT_LIB_STATUS-0}"
    ;;
esac
exit 99
END

pretend "$commands/cargo" <<'END'
#!/usr/bin/env bash
case "$*" in
'fmt --version')
    exit "${RUSTFMT_MISSING-0}"
    ;;
'fmt --all --check')
    exit "${CARGO_FMT_STATUS-0}"
    ;;
'test --release --offline --locked --no-run')
    exit "${CARGO_TEST_STATUS-0}"
    ;;
'test --release --offline --locked --no-fail-fast')
    [[ -z ${ODS1_CASE-} && ${PWD##*/} == repository && $(cat target/staticlib/libods1.a) == new ]] || exit 98
    usual='test result: ok. 100 passed; 0 failed; 0 ignored; 0 measured\n'
    usual+='test result: ok. 200 passed; 0 failed; 0 ignored; 0 measured\n'
    printf '%b' "${CARGO_TEST_TEXT-$usual}"
    exit "${CARGO_TEST_STATUS-0}"
    ;;
esac
exit 99
END

# clean: has the scratch repository as it is before a run, with what a check kept of a crate.
clean() {
    rm -rf "$repository"/{target,crates/*/out}
    mkdir -p "$repository/crates/image/out"
    printf 'kept\n' >"$repository/crates/image/out/kept"
}

# gate [NAME=VALUE..]: runs the scratch repository's gate under these variables. With EARLIER=yes an
# earlier run left an archive.
gate() {
    clean
    if [[ " $* " == *' EARLIER=yes '* ]]; then
        mkdir -p "$repository"/{target/staticlib,crates/ods1_c/out}
        printf 'old\n' | tee "$repository/target/staticlib/libods1.a" >"$repository/crates/ods1_c/out/libods1_c.a"
    fi
    env PATH="$commands:$PATH" RT_SEEN="$scratch/seen" "$@" \
        "$repository/.ci/run" >"$scratch/output" 2>"$scratch/errors"
}

# tell EXPECTED GOT [NAME=VALUE..]: counts whether a run of the gate was as expected, and tells of one
# that was not.
tell() {
    local expected=$1 got=$2
    shift 2
    if [[ $got == "$expected" ]]; then
        ((passed += 1))
        return
    fi
    ((failed += 1))
    printf 'with %s\n' "${*:-nothing changed}"
    printf '  expected %s\n' "$expected"
    printf '  got      %s\n' "$got"
    sed 's/^/  | /' "$scratch/output" "$scratch/errors"
}

# expect LAST STATUS [NAME=VALUE..]: runs the gate, and sees that the last line of its standard output
# is this, and its exit status 0 or not.
expect() {
    local last=$1 status=$2 got_status
    shift 2
    gate "$@"
    got_status=$?
    tell "\"$last\", exit status $status" \
        "\"$(tail -n 1 "$scratch/output")\", exit status $((got_status != 0))" "$@"
}

# files: the files of the scratch repository, a line each.
files() {
    (cd "$repository" && find . -type f -printf '%P %s\n' | sort)
}

# expect_as_it_is: runs the gate, and sees that rt ci is run with its temporary files where
# they are told to be, and on the checkout as it is: nothing is added, changed or left out before.
expect_as_it_is() {
    mkdir "$scratch/elsewhere"
    gate TMPDIR="$scratch/elsewhere"
    tell "$scratch/elsewhere"$'\n'"$as_it_was" "$(cat "$scratch/seen")" TMPDIR="$scratch/elsewhere"
    tell '0 left' "$(find "$scratch/elsewhere" -mindepth 1 | wc -l) left" TMPDIR="$scratch/elsewhere"
}

# expect_times [NAME=VALUE..]: runs the gate with an rt that works for a while until it has proved a crate,
# and again until it has tried a wrong program, and then rests; and sees that these times are told, by the
# clock and on the processors.
expect_times() {
    local row='[ ]+([0-9]+\.[0-9])[ ]+([0-9]+\.[0-9])' text
    gate RT_CI_BUSY=0.5 "$@"
    text=$(tail -n 10 "$scratch/output")
    if [[ $text =~ proofs$row.*'wrong programs'$row.*builds$row.*tests$row.*'the rest'$row.*all$row ]]; then
        text=${BASH_REMATCH[*]:1}
    fi
    tell told "$(awk '
        $1 >= 0.5 && $2 > 0 && $3 >= 0.5 && $4 > 0 && $9 >= 0.2 && $11 >= $1 + $3 + $9 && $12 >= $2 + $4 { $0 = "told" }
        { print }
    ' <<<"$text")" RT_CI_BUSY=0.5 "$@"
}

clean
as_it_was=$(files)

# What rt ci tells of the wrong programs where all is well.
told='rt: ok; handles allowed: none; must-fail edits: 3 refused; every proof was done in this run\n'

# Where all is well: 10 rt ci, 2 of the gate, 1 library, 1 cargo fmt, 300 cargo test, 50 Python.
expect '364 passed, 0 failed' 0
expect '363 passed, 0 failed' 0 RUSTFMT_MISSING=1
expect '364 passed, 0 failed' 0 ODS1_CASE=5
expect '364 passed, 0 failed' 0 RT_CI_TEXT="${told}10 passed, 0 failed"
expect '363 passed, 0 failed' 0 RT_CI_TEXT="${told}1 passed, 7 failed\n09 passed, 0 failed\n"
expect '315 passed, 0 failed' 0 PYTHON_TEXT='Ran 1 test in 0.0s\n\nOK\n'
expect_as_it_is

# One check that fails, and those after it are still counted.
expect '363 passed, 1 failed' 1 CARGO_FMT_STATUS=1

# rt ci: failures counted, none counted, no count, a wrong one, one that is not the last line, and one of
# some crates alone.
expect '361 passed, 3 failed' 1 RT_CI_STATUS=1 RT_CI_TEXT='7 passed, 3 failed\n'
expect '361 passed, 3 failed' 1 RT_CI_STATUS=0 RT_CI_TEXT='7 passed, 3 failed\n'
expect '364 passed, 1 failed' 1 RT_CI_STATUS=3
expect '354 passed, 1 failed' 1 RT_CI_STATUS=2 RT_CI_TEXT=
expect '354 passed, 1 failed' 1 RT_CI_STATUS=0 RT_CI_TEXT=
expect '354 passed, 1 failed' 1 RT_CI_TEXT='0 passed, 0 failed\n'
expect '354 passed, 1 failed' 1 RT_CI_TEXT='10 passed, 0 failed\nand more\n'
expect '354 passed, 1 failed' 1 RT_CI_TEXT='some passed, 0 failed\n'
expect '354 passed, 1 failed' 1 RT_CI_TEXT='-10 passed, 0 failed\n'
expect '354 passed, 1 failed' 1 RT_CI_TEXT='10 passed, 0 failed, 1 skipped\n'
expect '354 passed, 1 failed' 1 RT_CI_TEXT='10 passed, 0 failed (image and the crates below alone: not the gate)\n'
expect '354 passed, 1 failed' 1 RT_CI_TEXT='99999999999999999999 passed, 0 failed\n'

# A crate that is not laid out, and a repository that rt ci does not take.
expect '363 passed, 1 failed' 1 RT_CI_STATUS=1 \
    RT_CI_TEXT="rt: run rt fmt in the crate's folder\nrt: image NOT PROVED\nrt: FAILED: image\n9 passed, 1 failed\n"
expect '354 passed, 1 failed' 1 RT_CI_STATUS=2 RT_CI_TEXT='0 passed, 1 failed\n'

# Wrong programs that rt ci could not apply or read, and passed over.
edits='rt: ok; handles allowed: none; must-fail edits: 3 refused'
whole='every proof and must-fail edit was done in this run\n10 passed, 0 failed\n'
kept='done in this run: 2 of the 5 proofs (of crates and of their tests); the others are kept from earlier runs\n'
expect '364 passed, 2 failed' 1 RT_CI_TEXT="$edits, 2 bad; $whole"
expect '364 passed, 1 failed' 1 RT_CI_TEXT="$edits, 1 of them only by a limit, 1 bad; $whole"
expect '364 passed, 12 failed' 1 RT_CI_TEXT="$edits, 12 bad; ${kept}10 passed, 0 failed\n"
expect '361 passed, 5 failed' 1 RT_CI_STATUS=1 RT_CI_TEXT="$edits, 2 bad; ${kept}7 passed, 3 failed\n"
expect '364 passed, 0 failed' 0 RT_CI_TEXT="$edits, 0 bad; $whole"
expect '364 passed, 0 failed' 0 RT_CI_TEXT="$edits, 1 of them only by a limit; $whole"

# An rt ci that passes and tells nothing of them.
expect '364 passed, 1 failed' 1 RT_CI_TEXT="rt: ok; handles allowed: none; $whole"
expect '364 passed, 1 failed' 1 RT_CI_TEXT='10 passed, 0 failed\n'
expect '364 passed, 1 failed' 1 RT_CI_TEXT="rt: must-fail edits: 3 refused; $whole"

# The static library: refused, or said to be there and not there. What needs it is not run, and an archive
# of an earlier run is not taken for it.
expect '13 passed, 3 failed' 1 RT_LIB_STATUS=1
expect '13 passed, 3 failed' 1 RT_LIB_STATUS=1 ARCHIVE=no
expect '13 passed, 3 failed' 1 RT_LIB_STATUS=0 ARCHIVE=no
expect '13 passed, 3 failed' 1 RT_LIB_STATUS=1 EARLIER=yes
expect '13 passed, 3 failed' 1 RT_LIB_STATUS=0 ARCHIVE=no EARLIER=yes
expect '364 passed, 0 failed' 0 EARLIER=yes

# cargo test: a failure counted, a build that fails, a crash, and runs that test nothing.
three='test result: FAILED. 5 passed; 3 failed; 0 ignored\ntest result: ok. 4 passed; 0 failed; 0\n'
expect '73 passed, 3 failed' 1 CARGO_TEST_STATUS=101 CARGO_TEST_TEXT="$three"
expect '73 passed, 3 failed' 1 CARGO_TEST_STATUS=0 CARGO_TEST_TEXT="$three"
expect '64 passed, 1 failed' 1 CARGO_TEST_STATUS=101 CARGO_TEST_TEXT=
expect '64 passed, 1 failed' 1 CARGO_TEST_STATUS=0 CARGO_TEST_TEXT='running\n'
expect '64 passed, 1 failed' 1 CARGO_TEST_TEXT='test result: ok. 0 passed; 0 failed; 0 ignored\n'
expect '364 passed, 1 failed' 1 CARGO_TEST_STATUS=101

# Python: failures and errors counted, a library that is not built, a crash, and a run that tests nothing.
expect '359 passed, 5 failed' 1 PYTHON_STATUS=1 PYTHON_TEXT='Ran 50 tests in 1s\n\nFAILED (failures=3, errors=2)\n'
expect '363 passed, 1 failed' 1 PYTHON_STATUS=1 PYTHON_TEXT='Ran 50 tests in 1s\n\nFAILED (errors=1)\n'
expect '314 passed, 1 failed' 1 PYTHON_BUILD_STATUS=1
expect '314 passed, 1 failed' 1 PYTHON_STATUS=1 PYTHON_TEXT='Traceback\n'
expect '314 passed, 1 failed' 1 PYTHON_TEXT='Ran 0 tests in 0s\n\nOK\n'
expect '364 passed, 1 failed' 1 PYTHON_STATUS=139

# This script itself fails; and everything fails at once.
expect '363 passed, 1 failed' 1 GATE_STATUS=1 GATE_TEXT='1 passed, 1 failed\n'
expect '0 passed, 6 failed' 1 GATE_STATUS=127 GATE_TEXT= RT_CI_STATUS=127 RT_CI_TEXT= RT_LIB_STATUS=127 \
    ARCHIVE=no CARGO_FMT_STATUS=127

# What proofs and wrong programs took, also where a crate is kept from an earlier run or is not proved.
expect_times
expect_times RT_CI_PROVED='rt: image: its tests are proved\n'
expect_times RT_CI_PROVED='rt: image is kept: an earlier run on this machine proved the same files\n'
expect_times RT_CI_PROVED='rt: image NOT PROVED: its library lists failed\n'

# What the tests build with cannot be had: nothing is counted, and the gate fails.
expect '' 1 SETUP_STATUS=1

printf '%d passed, %d failed\n' "$passed" "$failed"
((failed == 0))
