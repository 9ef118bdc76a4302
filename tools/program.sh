# What ./tower and ./memory_map do. $name is the name of the program and of its crate, $root the repository's folder. The
# same functions serve what is made of the other crates in prebuilt/: $made is its name, $others what the page of scripts
# is made of besides its crate.
made=$name others=
case $name in
tower_c | tower_images | tower_threads) made=lib$name.a ;;
tower_film)
    made=tower.html
    others="web/module web/page web/heap.c web/editor.* examples/*.script crates/map_jobs/src/film_page.rt"
    ;;
esac
program=$root/crates/$name/out/$made
# The sums of what it was built from, as `prove` noted them.
made_of=$program.sources
# The same program, as it was proved and built before (prebuilt/README.md), with the same sums.
prebuilt=$root/prebuilt/$made

# Prints a note on standard error, unless TOWER_QUIET is set to something other than 0.
say() {
    case ${TOWER_QUIET:-0} in 0) echo "$name: $1" >&2 ;; esac
}

refuse() {
    echo "$name: $1" >&2
    exit 2
}

# Prints the sums of all sources and definitions that the program depends on.
sources() {
    crates=$("$root/c/below" "$name")
    folders=$(echo "$crates" | sed 's,.*,crates/&/src crates/&/specs,')
    # Of crates.txt the lines of these crates. Each folder is a word; a crate may have no specs.
    (cd "$root" && echo "$crates" | sed 's,.*,^&[: ],' | grep -f - crates.txt | sha256sum | sed 's,-$,crates.txt,' &&
        { find $folders $others -type f -exec sha256sum {} + 2>/dev/null || true; } | LC_ALL=C sort -k 2)
}

# Prints one sum of these.
sum_of_sources() {
    sources | sha256sum | cut -c 1-64
}

# Prints such sums, and behind them that of a program.
sums_with() {
    echo "$1"
    sha256sum <"$2" | sed "s,-\$,$made,"
}

# Returns whether a program is there, and was built from what has these sums.
is_of() {
    [ -e "$2" ] && [ -e "$2.sources" ] && sums_with "$1" "$2" | cmp -s - "$2.sources"
}

is_proved() {
    [ -x "$program" ] && is_of "$(sources)" "$program"
}

# Returns whether a program is the one that was noted with its sources, whichever these are, and runs here.
is_older() {
    [ -x "$1" ] && [ -e "$1.sources" ] && [ "$(sums_with "" "$1" | tail -n 1)" = "$(tail -n 1 "$1.sources")" ] &&
        runs_here "$1"
}

# Returns whether a program runs on this machine: without arguments it writes its help, and ends with 2.
runs_here() {
    ended=0
    "$1" </dev/null >/dev/null 2>&1 || ended=$?
    [ "$ended" -eq 2 ]
}

# Runs the program that was proved here, or else the one of prebuilt/, if it is of today's sources. If neither is, or
# that of prebuilt/ doesn't run on this machine, it returns.
run_proved() {
    today=$(sources)
    if [ -x "$program" ] && is_of "$today" "$program"; then
        say "this is the proved program"
        run_it "$program" "$@"
    fi
    if is_of "$today" "$prebuilt" && runs_here "$prebuilt"; then
        say "this is the proved program, from prebuilt/"
        run_it "$prebuilt" "$@"
    fi
}

# Returns whether the arguments request help.
asks_help() {
    case "$name: $* " in *" -h "* | *" --help "* | "tower: help "*) ;; *) return 1 ;; esac
}

# Prints a program's help on standard output, and ends with status 0. The program itself writes it to standard error, and
# ends with 2. If it refuses the arguments, this returns.
give_help() {
    ended=0
    said=$("$@" 2>&1 </dev/null) || ended=$?
    case $ended:$said in 2:error:* | [!2]:*) return 0 ;; esac
    printf '%s\n' "$said"
    exit 0
}

# Runs a program in place of this script. If it reads a script from a file, this script stays, to show a malformed line.
run_it() {
    it=$1
    shift
    ! asks_help "$@" || give_help "$it" "$@"
    { reads_script "$@" && [ -f /dev/stdin ]; } || exec "$it" "$@"
    from=$(sed -n 's/^pos:[^0-9]*//p' /proc/self/fdinfo/0 2>/dev/null || true)
    exec 3>&1
    ended=0
    errors=$("$it" "$@" 2>&1 >&3 3>&- || { ended=$?; printf /; exit "$ended"; }; printf /) || ended=$?
    printf %s "${errors%/}" >&2
    tail -c "+$((${from:-0} + 1))" /dev/stdin 2>/dev/null | show_malformed "${errors%/}"
    exit "$ended"
}

# If the program's last line names a malformed line, shows that line of standard input, and which word is wrong.
show_malformed() {
    nth=$(printf '%s\n' "$1" | sed -n "s/^$name: line \([0-9]*\) is malformed\$/\1/p")
    # (awk takes quadratic time for a long line, of which 101 bytes say what is wrong)
    [ -z "$nth" ] || sed -n "$nth{p;q}" | LC_ALL=C cut -b 1-101 |
        LC_ALL=C awk -v name="$name" -f "$root/tools/malformed.awk" >&2
}

# Prints the first source that isn't what a program was built from.
changed_source() {
    sums_with "$today" "$1" | diff "$1.sources" - | sed -n '/^[<>]/{s/^..[0-9a-f]*  //p;q;}'
}

# Prints why no proved program is run, or nothing if none is there.
why_unproved() {
    for built in "$program" "$prebuilt"; do
        [ -e "$built.sources" ] && [ -e "$built" ] || continue
        changed=$(changed_source "$built")
        if [ -n "$changed" ]; then
            echo "$changed has changed since the program was proved"
        else
            echo "prebuilt/$made runs only on Linux on x86-64 with glibc 2.34 or later"
        fi
        return
    done
}

# Notes what the program was built from. Call it only after a proof of exactly these sources.
note_sources() {
    sums_with "$(sources)" "$program" >"$made_of.new"
    mv "$made_of.new" "$made_of"
}

# Proves each crate that the program depends on, the lowest first, with a line for each, and builds the program.
# If the sources did not change while rt proved them, it leaves a stamp next to the program, and this notes the sources.
prove() {
    command -v rt >/dev/null || refuse "nothing can be proved, and no 'rt' is on PATH (README.md says what it is)"
    mkdir -p "$root/crates/$name/out"
    rm -f "$made_of"
    log=$root/crates/$name/out/prove.log
    before=$(sources)
    for crate in $("$root/c/below" "$name" | tac); do
        began=$(date +%s)
        if [ "$crate" = "$name" ]; then set -- run -- --help; else set -- lib; fi
        # A program that prints its help ends with 2. Its stamp shows whether it is proved.
        (cd "$root/crates/$crate" && rt "$@" </dev/null) >"$log" 2>&1 || [ "$crate" = "$name" ] ||
            not_proved "$crate"
        echo "$crate: proved ($(($(date +%s) - began)) s)"
    done
    [ -e "$program.stamp" ] || not_proved "$name"
    [ "$(sources)" = "$before" ] || refuse "a source has changed since the first proof began"
    note_sources
    echo "$name: ./$name is proved now, and runs crates/$name/out/$name until a source changes"
}

not_proved() {
    tail -n 30 "$log" >&2
    refuse "$1 is not proved; all that the prover said is in crates/$name/out/prove.log"
}

# Has the program of prebuilt/ refuse wrong arguments, though it is of other sources: a build takes a minute.
refuse_arguments() {
    ended=0
    said=$(timeout 1 "$prebuilt" "$@" 2>&1 >/dev/null </dev/null) || ended=$?
    case $ended:$said in 2:error:* | 2:*Usage:*) printf '%s\n' "$said" >&2; exit 2 ;; esac
}

# Runs the program of prebuilt/ though it is of other sources, and says so even if TOWER_QUIET is set.
run_older() {
    why="$(changed_source "$prebuilt") has changed, and no 'rt' is on PATH"
    echo "$name: this is the proved program of older sources, from prebuilt/: $why" >&2
    run_it "$prebuilt" "$@"
}

# Makes a folder for what an unproved run reads and writes. The run's end removes it.
begin_unproved() {
    why=$(why_unproved)
    if is_older "$prebuilt"; then
        ! asks_help "$@" || give_help "$prebuilt" "$@"
        refuse_arguments "$@"
        command -v rt >/dev/null || run_older "$@"
    fi
    command -v rt >/dev/null ||
        refuse "there is no proved program${why:+, since $why}, and no 'rt' is on PATH (README.md says what it is)"
    why=${why:+since $why}
    say "this is an unproved run, ${why:-which takes about a minute to start}; './$name prove' makes the proved program"
    work=$(mktemp -d)
    child=
    trap 'rm -rf "$work"' EXIT
    trap 'end_child; exit 143' TERM HUP
    trap 'end_child; exit 130' INT
    : >"$work/script"
}

# Ends an unproved run with all that it has started, which is in a process group of its own.
end_child() {
    [ -z "$child" ] || kill -- "-$child" 2>/dev/null || kill "$child" 2>/dev/null || true
}

# Runs the sources with these arguments, on the file script of that folder, and ends with their status. If its
# output can't be written, it ends with 1, as the proved program does.
run_unproved() {
    cd "$root/crates/$name"
    setsid rt try --seconds 600 -- "$@" <"$work/script" >"$work/output" 2>"$work/messages" &
    child=$!
    status=0
    wait "$child" || status=$?
    [ "$status" -ne 6 ] || refuse "an unproved run gives at most 1 MiB of output, in 600 seconds; \
'./$name prove' makes the program without these limits"
    if ! cat "$work/output" 2>/dev/null; then
        echo "$name: write failed" >&2
        exit 1
    fi
    grep -a -v -e "^checked: ended " -e "^run=" -e "^races: not looked for" "$work/messages" |
        sed "s,^Usage: program,Usage: $name," | tee "$work/errors" >&2 || true
    show_malformed "$(tail -n 1 "$work/errors")" <"$work/script"
    exit "$status"
}

# Returns whether the arguments have the program read a script.
reads_script() {
    case $name:${1-}:" $* " in
    tower:run:* | tower:image:* | tower:resume:* | memory_map:*" --film "*) ;;
    *) return 1 ;;
    esac
}

# Returns whether the arguments, behind the command of `tower`, are options and files.
names_files() {
    case $name:${1-}:" $* " in
    tower:check:* | tower:resume:*) ;;
    tower:* | memory_map:*" --film "*) return 1 ;;
    esac
}

# Ends with status 1 if a file that is named can't be read, with a line that names it. The program's line names none.
refuse_unread() {
    [ "$name" != tower ] || shift
    for word do
        case $word in
        -?* | '') ;;
        *) [ -r "$word" ] && [ ! -d "$word" ] || {
            printf "%s: the file %s can't be read\n" "$name" "$(printf %s "$word" | tr '\n\r\t' '???')" >&2
            exit 1
        } ;;
        esac
    done
}

# Says how a script is read, if it is a terminal or named as an argument, and refuses one from a folder.
look_at_input() {
    ! asks_help "$@" || return 0
    for word do
        [ "$1" = resume ] || [ ! -f "$word" ] || say "a script is read from standard input, as by '< $word'"
    done
    [ ! -t 0 ] || say "reading the script from the terminal; Ctrl-D at the start of a line ends it"
    [ ! -d /dev/stdin ] || {
        echo "$name: the script can't be read: standard input is a folder" >&2
        exit 1
    }
}

# What the program may read of the file of that word: all of a snapshot, of any other file one byte more than the largest
# image has.
read_of() {
    word=$1
    case $(head -c 4 "$word" | od -An -tx1 | tr -d ' \n') in
    6d433257) cat <"$word" ;;
    *) head -c 16844301 <"$word" ;;
    esac
}

# An unproved run reads no terminal, no slow pipe and no file except those that it gets. The whole script is therefore
# read first, and each file is copied, as far as the program may read it.
unproved() {
    begin_unproved "$@"
    if reads_script "$@"; then head -c 16777217 >"$work/script"; fi
    files=
    if names_files "$@"; then files=yes; fi
    nth=0
    for word do
        shift
        if [ -n "$files" ] && [ -f "$word" ] && [ "$name$nth" != tower0 ]; then
            read_of "$word" >"$work/image$nth"
            word=$work/image$nth
        fi
        set -- "$@" "$word"
        nth=$((nth + 1))
    done
    run_unproved "$@"
}

# Runs the program with these arguments: a proved one, or else its sources.
front() {
    case $#:${1-} in
    1:prove) prove; exit ;;
    *:prove) refuse "prove takes no words" ;;
    1:--version | 1:-V) echo "$name $(sed -n 's/^VERSION = //p' "$root/c/Makefile")"; exit ;;
    esac
    if reads_script "$@"; then look_at_input "$@"; fi
    if names_files "$@"; then refuse_unread "$@"; fi
    run_proved "$@"
    unproved "$@"
}
