# Where the built programs lie, and whether they are those of the sources; and which line of the toolchain is here. Read by the other
# scripts, which set `home` to the top of the repository, and `tool` to the program's name, else it is cms.

# Makes a program the one that the functions below speak of: `cms` or `minidisk`.
speak_of() {
    tool=$1
    case $tool in
        cms) crate_name=cms_cli ;;
        *) crate_name=$tool ;;
    esac
    crate=$home/crates/$crate_name
    program=$crate/out/$crate_name
    built=$crate/out/built
}
speak_of "${tool:-cms}"

# Whether a source was changed, added or removed after a file.
has_changed_since() {
    [ -n "$(find "$home/crates.txt" "$home/HANDLES" "$home"/crates/*/src "$home"/crates/*/specs "$home"/crates/*/proofs \
        -newer "$1" -print 2>/dev/null | head -n 1)" ]
}

# Whether the program isn't built, or isn't that of the sources.
is_old() {
    if [ ! -x "$program" ] || { [ ! -e "$built" ] && ! take_from_gate; }; then
        return 0
    fi
    has_changed_since "$built"
}

# Where the line of the toolchain is here whose `rt ci` keeps nothing, takes over the program that such a run left: it proved all that the
# program rests on. What was changed since the run came to the first of these crates counts as changed. A run sets aside each crate's
# folder out, and makes it anew at the crate's proof; and it alone leaves the program of the second compiler.
take_from_gate() {
    [ -x "$program.by-rattle" ] && [ ! -e "$program.stamp" ] && command -v rt >/dev/null && ! keeps_proofs || return 1
    births=$(needed_crates "$crate_name" | while read -r name; do stat -c %W "$home/crates/$name/out" || echo 0; done 2>/dev/null | sort -n)
    first=$(echo "$births" | head -n 1)
    last=$(echo "$births" | tail -n 1)
    { [ "$first" -gt 0 ] && [ "$last" -le "$(stat -c %Y "$program")" ] && touch -d "@$first" "$built"; } 2>/dev/null
}

# Whether a run of the gate left the program here, and no source changed since: a build then takes what that run kept, which is soon done.
is_left_by_gate() {
    [ -x "$program" ] && [ ! -e "$built" ] && [ ! -e "$program.stamp" ] && ! has_changed_since "$program" && keeps_proofs
}

# These crates and those that they rest on, in their order in crates.txt.
needed_crates() {
    awk -v tops="$*" '
        !/^#/ && split($0, part, ":") > 1 { split(part[1], word, " "); name[++lines] = word[1]; needs[word[1]] = part[2] }
        END {
            last = split(tops, todo, " ")
            for (i = 1; i <= last; i++) needed[todo[i]] = 1
            for (i = 1; i <= last; i++) {
                count = split(needs[todo[i]], below, " ")
                for (k = 1; k <= count; k++)
                    if (below[k] in needs && !(below[k] in needed)) { needed[below[k]] = 1; todo[++last] = below[k] }
            }
            for (i = 1; i <= lines; i++) if (name[i] in needed) print name[i]
        }' "$home/crates.txt"
}

# Makes a folder the top of a repository of these crates alone: a copy of them with no wrong programs, and of nothing that was built.
copy_crates() {
    copy=$1
    shift
    mkdir -p "$copy/.git" "$copy/crates" && cp "$home/HANDLES" "$copy" || return 1
    for name do
        grep "^$name\( staticlib\)\{0,1\}:" "$home/crates.txt" >>"$copy/crates.txt" && mkdir "$copy/crates/$name" || return 1
        for part in "$home/crates/$name"/*; do
            case ${part##*/} in
                out | must-fail) ;;
                *) cp -R "$part" "$copy/crates/$name" || return 1 ;;
            esac
        done
    done
}

# How many gigabytes of memory are free, as far as the system tells it, and no more than the control group may take.
free_memory() {
    {
        sed -n 's/^MemAvailable: *\([0-9]*\) kB$/\1/p' /proc/meminfo
        sed -n 's/^[0-9]\{4,\}$/&/p' /sys/fs/cgroup/memory.max | sed 's/...$//'
    } 2>/dev/null | sort -n | awk 'NR == 1 { print int($1 / 1000000) }'
}

# How many crates are proved at a time. `rt ci` begins a proof only where its guess of the memory fits beside the guesses of those that run;
# with less than some 26 gigabytes a large crate, for which all others wait, then waits long for its turn. So each processor gets a crate
# there, as far as there are 3 gigabytes for each, which is what a proof takes.
choose_lanes() {
    lanes=$(nproc 2>/dev/null || getconf _NPROCESSORS_ONLN 2>/dev/null || echo 1)
    memory=$(free_memory)
    if [ -z "${RT_JOBS:-}" ] && [ "${memory:-99}" -lt 26 ]; then
        if [ $((memory / 3)) -lt "$lanes" ]; then lanes=$((memory / 3)); fi
        if [ "$lanes" -lt 1 ]; then lanes=1; fi
        RT_JOBS=$lanes
        export RT_JOBS
    fi
}

# Whether `rt ci` keeps on this machine what it proved, and takes the names of crates. One line of the toolchain does; in the other `rt ci`
# proves all each time, and `rt verdict` in a crate's folder and `rt must-fail NAME` stand for `rt ci NAME`.
keeps_proofs() {
    rt help 2>&1 | grep -q '^  rt ci NAME'
}

# Ends the script where the toolchain isn't there.
need_toolchain() {
    if ! command -v rt >/dev/null; then
        echo "$tool: the program isn't built, and there is no rt: put the Rattle kit's folder bin into PATH" >&2
        exit 1
    fi
}
