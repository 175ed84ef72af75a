#!/bin/sh
# Runs `./cms` and `./minidisk` in a fresh clone: first where nothing is built, unproved; then it builds the program by a word that writes, and
# looks at the statuses, what is typed and what is said on standard error, on the example's image; and installs both. It is no part of the gate.
# It needs `git`, the commit that is to be tried, and the toolchain. Where `rt ci` keeps what it proved and has proved this commit on the
# machine, the build takes minutes; in the line of the toolchain that keeps nothing it takes as long as README.md says of a first call. Each
# unproved run takes a minute or more.
home=$(readlink -f -- "$(dirname -- "$(readlink -f -- "$0")")/..")
folder=$(mktemp -d)
trap 'rm -rf "$folder"' EXIT
cd "$folder" || exit 1
git clone -q "$home" clone || exit 1
home=$folder/clone
cms=$home/cms
cp "$home/examples/disk.img" disk.img
passed=0
failed=0

# A run with the script in the file `script`: its status and a text that standard output (or standard error) must have.
expect() {
    title=$1 want=$2 stream=$3 text=$4
    shift 4
    "$cms" "$@" <script >output 2>error
    got=$?
    if [ "$got" = "$want" ] && { [ -z "$text" ] || grep -qF -- "$text" "$stream"; }; then
        passed=$((passed + 1))
    else
        failed=$((failed + 1))
        printf 'FAILED: %s: status %s, wanted %s, with %s in %s:\n' "$title" "$got" "$want" "$text" "$stream"
        cat output error
    fi
}

# Standard output is exactly this text.
same() {
    if [ "$(cat output)" = "$2" ]; then
        passed=$((passed + 1))
    else
        failed=$((failed + 1))
        printf 'FAILED: %s:\n' "$1"
        cat output
    fi
}

# A command passes.
holds() {
    title=$1
    shift
    if "$@"; then
        passed=$((passed + 1))
    else
        failed=$((failed + 1))
        printf 'FAILED: %s\n' "$title"
        cat error
    fi
}

# Where nothing is built, words that only read run at once, on copies and unproved, and leave nothing.
cp "$home/examples/disk.img" 'an image.img'
printf 'TYPE HELLO TEXT A\nACCESS 192 B\nTYPE HELLO TEXT B\n' >script
expect 'unproved on two images' 0 error 'an unproved run' 191,512,ro,disk.img "192,512,ro,an image.img"
same 'what it types' "$(printf 'HELLO\nWORLD\nR;\nCMS723I B (192) R/O\nR;\nHELLO\nWORLD\nR;')"
holds 'it says how to build' grep -qF './cms --build' error
holds 'it says how an image is named' grep -qF 'an image.img is read as a copy named unit-2.img' error
expect 'unproved help' 0 output 'usage: cms' --help
expect 'unproved without an image' 4 error 'missing.img' 191,512,ro,missing.img
awk 'BEGIN { for (i = 0; i < 30000; i++) print "FROB" }' >script
expect 'more than it may type' 1 error 'gave no answer' 191,512,ro,disk.img
holds 'unproved runs leave nothing' test ! -e clone/crates/cms_cli/out
holds 'and change no image' cmp -s disk.img "$home/examples/disk.img"

# `minidisk` looks into images in the same way.
cms=$home/minidisk
expect 'unproved list' 0 output 'HELLO.TEXT' list disk.img
holds 'it says how minidisk is built' grep -qF './minidisk --build' error
expect 'unproved check of two images' 0 output 'sound, 1 files, 0 blocks lost' check disk.img "an image.img"
expect 'unproved get of what is not there' 1 error 'no file of the image has such a name' get -f records disk.img no.text
holds 'unproved runs of minidisk leave nothing' test ! -e clone/crates/minidisk/out
cms=$home/cms

# Where a word writes, the program is built first. The places of the crates go up by one.
printf 'TYPE HELLO TEXT A\n' >script
echo 'program: the clone is built now' >&2
expect 'built at a word that writes' 0 error 'cms: the program is built' 191,512,rw,disk.img
same 'what the built program types' "$(printf 'HELLO\nWORLD\nR;')"
holds 'the places go up' \
    awk '$3 == "of" && $4 ~ /:$/ { if ($2 != ++place) bad = 1; all = $4 + 0 } END { exit bad || !place || place != all }' error
expect 'and runs from then on' 0 output 'HELLO' 191,512,ro,disk.img
holds 'with no word of the building' test ! -s error

: >script
expect 'an empty script' 0 output '' 191,512,ro,disk.img
same 'an empty script types nothing' ''
expect 'help' 0 output 'usage: cms' --help
expect 'help in short' 0 output 'status:' -h
expect 'version' 0 output 'cms 0' --version
expect 'no words' 2 output 'cms: words refused, reason 1'
expect 'no words, in words' 2 error 'VDEV,BSIZE,ACCESS,NAME'
expect 'a bad unit word' 2 output 'cms: words refused, reason 2' 191,513,ro,disk.img
same 'one line at a refusal' 'cms: words refused, reason 2'
expect 'a bad unit word, in words' 2 error 'unit word 1' 191,513,ro,disk.img
expect 'no turns' 2 output 'cms: words refused, reason 3' -t 0 191,512,ro,disk.img
expect 'no zone' 2 output 'cms: words refused, reason 4' -z E1500 191,512,ro,disk.img
expect 'a device twice' 2 error 'device 191' 191,512,ro,disk.img 191,512,ro,disk.img
expect 'no seed' 2 output 'cms: words refused, reason 6' -g x 191,512,ro,disk.img
expect 'two units' 0 output '' 191,512,ro,disk.img 192,512,ro,disk.img
expect 'a generated script' 0 output 'CMS002E File GEN EXEC * not found' -g 1 191,512,ro,disk.img
expect 'a missing image' 4 error 'missing.img' 191,512,rw,missing.img
same 'nothing is typed without an image' ''
if [ -e missing.img ]; then echo 'FAILED: a missing image was made'; failed=$((failed + 1)); fi
expect 'a device file' 4 error 'plain file' 191,512,ro,/dev/null

printf 'TYPE HELLO TEXT A\n' >script
expect 'a file is typed' 0 output 'HELLO' 191,512,ro,disk.img
same 'a file is typed whole' "$(printf 'HELLO\nWORLD\nR;')"
printf 'FROB\n' >script
expect 'an unknown command' 0 output 'CMS001E Unknown command FROB' 191,512,ro,disk.img
cp "$home/examples/format.txt" script
expect 'an image is made' 0 output 'CMS733I 60 blocks formatted on B (192)' 191,512,ro,disk.img 192,1024,n60,work.img
printf 'ACCESS 192 B\nQUERY DISK B\n' >script
expect 'it is found again' 0 output 'WORK01 192 B R/W  1024      0        6       54       60' 191,512,ro,disk.img 192,1024,rw,work.img
expect 'an image that is there is no new one' 4 error 'work.img' 192,1024,n60,work.img
cp "$home/examples/files.img" files.img
cp "$home/examples/files.txt" script
expect 'files are listed, typed, renamed and erased' 0 output 'ARCHIVE  TEXT     A1 V    10       60        2' 191,512,rw,files.img
printf 'LISTFILE * DATA\nTYPE ARCHIVE TEXT A 60\n' >script
expect 'they stay so' 0 output 'NOT SO NEW' 191,512,ro,files.img
same 'erased files are gone' "$(printf 'CMS002E File * DATA A not found\nR(00028);\nNOT SO NEW\nR;')"
cp "$home/examples/files.img" procedure.img
cp "$home/examples/procedure.txt" script
expect 'a procedure runs' 0 output 'COFFEE' 191,512,rw,procedure.img
same 'a procedure and what it types' "$(printf 'R;\nDEAR OPERATOR\nCOFFEE\nNOT SO NEW\nR;\nCMS002E File * MEMO A not found\nR(00028);')"
cp "$home/examples/disk.img" copied.img
printf 'COPYFILE HELLO TEXT A NEW TEXT A (TYPE LOWCASE\nTYPE NEW TEXT A\n' >script
expect 'a file is copied' 0 output 'HELLO TEXT A1 TO NEW TEXT A1' 191,512,rw,copied.img
printf 'TYPE NEW TEXT A\n' >script
expect 'the copy stays' 0 output 'world' 191,512,ro,copied.img
printf '\n\n\nTYPE HELLO TEXT A\n' >script
expect 'the turns are spent' 5 error 'turns' -t 3 191,512,ro,disk.img
same 'nothing runs behind the turns' ''

# Standard output and input that fail.
printf 'TYPE HELLO TEXT A\n' >script
"$home/cms" 191,512,ro,disk.img <script >/dev/full 2>error
if [ $? = 4 ] && grep -q 'standard output' error; then passed=$((passed + 1)); else failed=$((failed + 1)); echo 'FAILED: a full output'; cat error; fi
"$home/cms" 191,512,ro,disk.img </ >output 2>error
if [ $? = 4 ] && grep -q 'standard input' error; then passed=$((passed + 1)); else failed=$((failed + 1)); echo 'FAILED: a folder as input'; cat error; fi

# Standard streams that aren't open: nothing of theirs comes into an image.
cp "$home/examples/files.img" streams.img
printf 'LISTFILE\n' >script
"$home/cms" 191,512,rw,streams.img <script >&- 2>error
if [ $? = 4 ] && cmp -s streams.img "$home/examples/files.img"; then passed=$((passed + 1)); else failed=$((failed + 1)); echo 'FAILED: no output'; fi
"$home/cms" 191,512,rw,streams.img <script >/dev/full 2>&-
if [ $? = 4 ] && cmp -s streams.img "$home/examples/files.img"; then passed=$((passed + 1)); else failed=$((failed + 1)); echo 'FAILED: no error output'; fi
"$home/cms" 191,512,rw,streams.img <&- >output 2>error
if [ $? = 4 ] && [ ! -s output ]; then passed=$((passed + 1)); else failed=$((failed + 1)); echo 'FAILED: no input'; fi
mkfifo pipe.img
expect 'a pipe' 4 error 'plain file' 191,512,ro,pipe.img

clone/install "$folder/prefix" >output 2>error
cms=$folder/prefix/bin/cms
expect 'it is installed' 0 output 'HELLO' 191,512,ro,disk.img
holds 'its manual page is installed' cmp -s prefix/share/man/man1/cms.1 "$home/docs/cms.1"
holds 'that of minidisk too' cmp -s prefix/share/man/man1/minidisk.1 "$home/docs/minidisk.1"
cms=$folder/prefix/bin/minidisk
expect 'minidisk is installed' 0 output 'HELLO.TEXT' list disk.img

echo "$passed passed, $failed failed"
[ "$failed" = 0 ]
