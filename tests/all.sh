#!/bin/sh
# Runs the scripts of tests/ on the built program, one after another. No part of the gate.
#
#     tests/all.sh              all of them
#     tests/all.sh NAME ..      some, as crash.py
#     tests/all.sh --needs      says what each needs, and runs nothing
#
# Each wants the built program, `cms` or `minidisk`, and Python 3. One whose further needs aren't there is left out, and said so. The status is 0 where every
# script that was to run was run and passed. tests/wrong/try is apart: it proves, for up to an hour.
home=$(dirname -- "$(readlink -f -- "$0")")/..
program=$home/crates/cms_cli/out/cms_cli
minidisk=$home/crates/minidisk/out/minidisk
folder=$(mktemp -d)
trap 'rm -rf "$folder"' EXIT

# Each script, what it needs, and what it does.
scripts() {
    cat <<'LIST'
program.sh       git     statuses, what is typed, and what is said on standard error
examples.py      -       the examples of README.md, docs/SESSIONS.md and docs/cms.1 type what these show
volumes.py       -       makes volumes of several directory and map blocks, and reads them as they were made
updates.py       -       foretells what updates of such volumes write, and looks at what stands then
exact.py         strace  updates on volumes, whose writes must be those that updates.py foretells
crash.py         strace  an ERASE, stopped at each write and each sync, on the example and on volumes of volumes.py
append_crash.py  strace  additions to files by COPYFILE and EXECIO, stopped so
century_crash.py strace  two CENTURYs over a directory of two levels, stopped so
format_crash.py  strace  a FORMAT and a relabelling, stopped so
files_crash.py   strace  a COPYFILE, an ERASE, a RENAME and a LISTFILE with EXEC, stopped so
edge.py          cc      files, folders, streams, locks and syncs that fail
memory.py        strace  calls for memory that the system refuses
memory_paths.py  gdb     answers of want of memory that no test of sessions passes by; wants rt too
hostile.py       -       10,000 damaged images, and single cases; the one of a full file system wants leave to mount
volume.py        -       makes one large volume, as bench/bench.py reads it
commands.py      -       random commands of minidisk: what each types, says and leaves
roundtrips.py    -       texts and records that minidisk puts and gets again, and the limits
damaged.py       -       damaged images under check, list, info, get and dump of minidisk
statuses.py      -       words that are refused, images in use, and files and streams that fail, of minidisk
transcripts.py   -       the commands of README.md and docs/TUTORIAL.md answer what these show
update_crash.py  strace  a put, an erase and a rename of minidisk, stopped at each write and each sync
LIST
    for path in "$home"/tests/*.py "$home"/tests/*.sh; do
        [ -x "$path" ] && printf '%s\n' "$(basename "$path")"
    done
}

# The lines of the list, the listed ones first; a script that isn't listed has its needs in its head.
list() {
    scripts | awk '!seen[$1]++ && $1 != "all.sh" { if (NF == 1) $0 = sprintf("%-16s -       see its head", $1); print }'
}

crash_on() {
    "$home/tests/crash.py" "$folder/$1.img" 512 "$2" DATA
}

# Whether a script runs `minidisk`.
is_of_minidisk() {
    case $1 in
        commands.py | roundtrips.py | damaged.py | statuses.py | transcripts.py | update_crash.py) ;;
        *) return 1 ;;
    esac
}

# Why a script with this need can't be run, if for something.
lack() {
    if is_of_minidisk "$1" && [ ! -x "$minidisk" ]; then
        echo 'the program minidisk, by ./minidisk --build'
    elif [ "$2" != - ] && ! command -v "$2" >/dev/null; then
        echo "$2"
    fi
}

run() {
    case $1 in
        crash.py)
            "$home/tests/crash.py" && "$home/tests/volumes.py" "$folder" && crash_on wide F00003 && crash_on deep F00003 &&
                crash_on enough F00003 && crash_on shrinking F00302 && crash_on narrowing F00003
            ;;
        volumes.py) "$home/tests/volumes.py" "$folder" ;;
        volume.py) "$home/tests/volume.py" "$folder/large.img" ;;
        *) "$home/tests/$1" ;;
    esac
}

# Whether a script is among the words, or there are none.
is_wanted() {
    name=$1
    shift
    [ $# -eq 0 ] && return 0
    for word in "$@"; do
        [ "$word" = "$name" ] && return 0
    done
    return 1
}

if [ "${1:-}" = --needs ]; then
    list
    exit 0
fi
for word in "$@"; do
    if ! list | awk '{ print $1 }' | grep -qxF -- "$word"; then
        echo "all: there is no script $word in tests/" >&2
        exit 2
    fi
done
if [ ! -x "$program" ]; then
    echo 'all: build the program first, by ./cms --build' >&2
    exit 2
fi
list >"$folder/list"
passed=0
failed=0
left=0
while read -r name need _; do
    is_wanted "$name" "$@" || continue
    lack=$(lack "$name" "$need")
    if [ -n "$lack" ]; then
        echo "all: $name is left out: it needs $lack"
        left=$((left + 1))
        continue
    fi
    echo "all: $name"
    if run "$name" </dev/null; then
        passed=$((passed + 1))
    else
        failed=$((failed + 1))
        echo "all: $name FAILED"
    fi
done <"$folder/list"
echo "all: $passed passed, $failed failed, $left left out"
[ "$failed" = 0 ] && [ "$left" = 0 ]
