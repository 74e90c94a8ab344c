# What ./judge and ./drill share: the kit's tools, a program built from these sources and no others, its run, and the exit status. POSIX sh.
# include/build-library and examples/build-and-run take the parts about the shell, the kit and the lock.
# It defines functions and does nothing by itself. A wrapper sets `program`, its name; `here`, the checkout's folder; `usage`, a function; `awaits`, what
# it reads; and `meanings`, what the program's lines mean: an exit status and awk's pattern for a whole line, one to a line. Then it calls
# `answer_in_lines`, `answer_in_text` (with the pattern of a text's last line) or `answer_in_bytes`.
# Exit statuses: 0 lawful, or a run without refusal; 1 unlawful; 2 refused; 3 no answer, or one that couldn't be written. docs/FORMAT.md has them.

say() { printf '%s: %s\n' "$program" "$*" >&2; }

# There is no answer. Called outside subshells only: it ends the wrapper.
give_up() {
    say "$@"
    exit 3
}

# ---- the shell

# Leaves of PATH the folders that are named from the root, so that no file of the current folder is taken for a tool.
keep_absolute_path() {
    kept='' rest=${PATH-}:
    while [ -n "$rest" ]; do
        case $rest in /*) kept=$kept${kept:+:}${rest%%:*} ;; esac
        rest=${rest#*:}
    done
    # An empty PATH would be the current folder.
    PATH=${kept:-/usr/bin:/bin}
}

# Bash takes functions from the environment. One that is named like a tool or a command of the shell would answer in its place, here or in a script that
# rt starts. POSIXLY_CORRECT has bash look for `unset` itself before any function; other shells take no notice.
drop_foreign_functions() {
    POSIXLY_CORRECT=1
    unset -f '[' cd command echo false kill printf pwd read test true umask unset wait
}

need_tools() { # TOOL...
    for tool; do
        unset -f "$tool"
        case $(command -v "$tool") in /*) ;; *) give_up "$tool isn't in a folder of PATH" ;; esac
    done
}

# Where 0, 1 or 2 is closed, a file that is opened later would take its place. A folder can be opened, and reading it fails, as reading nothing should.
occupy_standard_files() {
    ( : 3>&2 ) || exec 2>/dev/null
    ( : 3>&1 ) 2>/dev/null || give_up "standard output is closed"
    ( : 3<&0 ) 2>/dev/null || exec </
}

clean_up() {
    [ -z "$room" ] || rm -rf -- "$room"
    room=''
}

# Ends by the signal itself, so that a caller's loop ends too.
stop_by() { # SIGNAL
    clean_up
    trap - EXIT "$1"
    kill -s "$1" $$
}

# Whatever ends this shell by itself, an error of its own too, is status 3: it is `outcome` that counts, and only an answer changes it.
begin() {
    outcome=3 room=''
    drop_foreign_functions
    set -u
    unset IFS CDPATH
    LC_ALL=C
    export LC_ALL
    umask u+rwx
    trap 'clean_up; exit "$outcome"' EXIT
    # A line that nobody takes is no answer: it is said, and not died of.
    trap '' PIPE
    for signal in HUP INT TERM; do
        # shellcheck disable=SC2064
        trap "stop_by $signal" "$signal"
    done
    keep_absolute_path
    occupy_standard_files
    need_tools awk cat cp cut date env find mkdir mktemp mv rm sha256sum sort tail tr uname
}

make_room() {
    case ${TMPDIR-} in /*) ;; *) TMPDIR=/tmp ;; esac
    room=$(mktemp -d "$TMPDIR/adzequarry.XXXXXX" 2>/dev/null) || give_up "no temporary folder can be made in $TMPDIR"
}

# ---- the kit

find_rt() {
    unset -f rt
    rt=$(command -v rt) || give_up "rt, the command of the Rattle kit, isn't in a folder of PATH"
    case $rt in /*) ;; *) give_up "rt is '$rt' here, and not a file with its whole path" ;; esac
    if [ ! -f "$rt" ] || [ ! -x "$rt" ]; then give_up "$rt can't be started"; fi
}

need_file() { [ -f "$1" ] && [ -r "$1" ] || give_up "the Rattle kit has no file $1"; }

# Sets where the kit's files are: `kit`, `tools`, `libraries`, `loader`; and `machine`.
find_kit() {
    find_rt
    guide=$("$rt" doc 2>/dev/null </dev/null) || give_up "$rt doesn't work: see what 'rt doc' says"
    case $guide in
    /*/START-HERE.md) kit=${guide%/START-HERE.md} ;;
    *) give_up "the Rattle kit isn't found: 'rt doc' says '$guide', which is no whole path of its guide" ;;
    esac
    machine=$(uname -m)
    tools=$kit/toolchain/bin
    libraries=$kit/toolchain/lib
    loader=$libraries/ld-linux-x86-64.so.2
    need_file "$kit/KIT-ID"
    need_file "$loader"
    need_file "$libraries/libc.so.6"
}

# Sets `emulator`, what runs a program where the processor isn't x86-64: the kit has none.
find_emulator() {
    emulator=''
    [ "$machine" != x86_64 ] || return 0
    need_tools qemu-x86_64
    emulator=$(command -v qemu-x86_64)
}

# Runs a proved program. It is for x86-64 and runs with the kit's loader and C library; on another processor qemu-x86_64 runs it, of the PATH. Of the
# environment nothing reaches it, so that no LD_PRELOAD writes in its place; but the emulator's stack can be set, to try a small one.
run_proved() { # FILE
    env -i ${QEMU_STACK_SIZE:+"QEMU_STACK_SIZE=$QEMU_STACK_SIZE"} ${emulator:+"$emulator"} "$loader" --library-path "$libraries" "$1"
}

# ---- built from these sources

# Prints the crates that a program is made of: its own and all that crates.txt says it stands on, but for the kit's.
crates_of() { # NAME
    NAME=$1 awk '
        { sub(/#.*/, "") }
        NF { name = $1; sub(/:.*/, "", name); below[name] = (index($0, ":") ? substr($0, index($0, ":") + 1) : "") }
        function visit(name,    many, each, k) {
            if (!(name in below) || (name in seen)) return
            seen[name] = 1
            print name
            many = split(below[name], each, " ")
            for (k = 1; k <= many; k++) visit(each[k])
        }
        END { visit(ENVIRON["NAME"]); if (!(ENVIRON["NAME"] in seen)) exit 1 }' "$here/crates.txt"
}

# Prints one sum of all that a program is made of: the kit, crates.txt, and each file of its crates that a check reads.
sum_sources() { # NAME
    crates=$(crates_of "$1") || return
    parts=''
    for crate in $crates; do
        parts="$parts $crate/src"
        for part in specs proofs; do [ ! -d "$here/crates/$crate/$part" ] || parts="$parts $crate/$part"; done
    done
    # shellcheck disable=SC2086
    sums=$(cd "$here/crates" && find -L $parts -type f -exec sha256sum {} +) || return
    { cat "$kit/KIT-ID" "$here/crates.txt" && echo "$machine" && printf '%s\n' "$sums" | sort; } | sha256sum | cut -d' ' -f1
}

# Prints where rt leaves a program that it built.
program_of() { # NAME
    echo "$here/crates/$1/out/$1"
}

# Copies the program to the room, where nobody replaces it between the look at it and its run, and says what the copy is: by its sum. A copy that
# finds no room says nothing against the program, which would be deleted and built anew.
take() { # NAME
    made=$(program_of "$1")
    [ -f "$made" ] && [ -r "$made" ] || return
    cp -- "$made" "$room/$1" 2>/dev/null || give_up "there is no room in $TMPDIR"
    taken=$(sha256sum <"$room/$1") && taken=${taken%% *}
}

# Whether what was taken is what was built from sources with this sum. The file target/built/NAME is written after a build, and says both sums.
take_built() { # NAME SOURCES
    take "$1" && [ "$(cat "$here/target/built/$1" 2>/dev/null)" = "$2 $taken" ]
}

# A program that `rt run` finds built is run as it is. So it goes, with the stamp that says so.
forget() { # NAME
    rm -f "$here/target/built/$1" "$(program_of "$1")" "$(program_of "$1").stamp"
}

# Proves and builds a program. `rt run` does so, and runs it then: here on no input, where each of ours ends at once. Where that fails nothing is left that
# a later call would run.
prove() { # NAME SOURCES
    log=$here/target/built/$1.log
    last=$(cat "$here/target/built/$1.seconds" 2>/dev/null) && last="took $last s the last time" || last="takes some minutes"
    say "the program isn't built from these sources yet: it is proved and built first, which $last"
    forget "$1" || give_up "$here/crates/$1/out can't be written"
    began=$(date +%s)
    if ! (cd "$here/crates/$1" && "$rt" run) >"$log" 2>&1 </dev/null; then
        forget "$1"
        give_up "the check failed, so nothing is run; what it said is in $log"
    fi
    [ "$(sum_sources "$1")" = "$2" ] || give_up "the sources were changed while the program was built, so nothing is run; start it again"
    take "$1" || give_up "the check passed, but $(program_of "$1") can't be read"
    echo "$(($(date +%s) - began))" >"$here/target/built/$1.seconds"
    echo "$2 $taken" >"$here/target/built/$1.new" && mv -f "$here/target/built/$1.new" "$here/target/built/$1" || give_up "$here/target/built/$1 can't be written"
}

# One build at a time in a checkout. The system itself frees the lock when the builder and all that it started have ended, however they ended. Who was
# started by the one that has the lock, with its file 9, has it too.
lock_checkout() { # WHAT-IS-NOT-BUILT
    lock=$here/target/built/lock
    if ! mkdir -p "$here/target/built" 2>/dev/null || ! ( : >>"$lock" ) 2>/dev/null; then
        give_up "$1 isn't built from these sources yet, and $here/target can't be written"
    fi
    unset -f flock
    case $(command -v flock) in /*) ;; *) give_up "$1 isn't built from these sources yet, and to build it flock (util-linux) is needed" ;; esac
    # -ef is in POSIX since 2024, and was in dash, bash and busybox before.
    # shellcheck disable=SC3013
    [ /dev/fd/9 -ef "$lock" ] || exec 9>>"$lock"
    if ! flock -n 9; then
        say "another build is under way in this checkout: waiting for its end"
        flock 9 || give_up "$lock can't be locked"
    fi
}

build() { # NAME SOURCES
    lock_checkout "the program"
    take_built "$1" "$2" || prove "$1" "$2"
    exec 9>&-
}

# Leaves in the room a program that is built from these sources.
make_ready() { # NAME
    sources=$(sum_sources "$1") || give_up "the sources of $1 can't be read in $here"
    take_built "$1" "$sources" || build "$1" "$sources"
}

# ---- inputs

# A file's name as it is shown: a line feed or another control character in it could make a line of its own. So each byte that isn't part of printable
# ASCII, or of UTF-8 from U+00A0 on, is `?`: C2 9B is a terminal's control too, and so is 9B by itself.
shown() { # FILE
    case $1 in
    -) echo "standard input" ;;
    *[![:print:]]*) printf '%s' "$1" | tr '[:cntrl:]' '?' | printable ;;
    *) printf '%s' "$1" ;;
    esac
}

printable() {
    awk '
        BEGIN {
            more = "[\200-\277]"
            known = "^([\040-\176]|\302[\240-\277]|[\303-\337]" more "|\340[\240-\277]" more "|[\341-\357]" more more
            known = known "|\360[\220-\277]" more more "|[\361-\364]" more more more ")"
        }
        { for (rest = $0; rest != ""; rest = substr(rest, size + 1)) {
            size = match(rest, known) ? RLENGTH : 1
            printf "%s", (RSTART ? substr(rest, 1, size) : "?")
        } }'
}

# Prints why a file can't be opened, and nothing where it can. A pipe isn't tried: its writer would take that for the reader's end.
why_closed() { # FILE
    if [ "$1" = - ] || [ -p "$1" ]; then return; fi
    if [ -d "$1" ]; then
        echo "is a folder"
        return
    fi
    case $( ( : <"$1" ) 2>&1 ) in
    '') ;;
    *'ermission denied') echo "not allowed to read" ;;
    *'o such file' | *'o such file or directory' | *'ot a directory') echo "no such file" ;;
    *) echo "can't be opened" ;;
    esac
}

# Gives one input to the way of answering that $1 names, which sets `result`.
answer_one() { # WAY FILE
    result=3
    why=$(why_closed "$2")
    if [ -n "$why" ]; then
        say "$(shown "$2"): $why"
        return
    fi
    if [ "$2" != - ]; then
        "$1" "$2" <"$2"
        return
    fi
    [ ! -t 0 ] || say "awaits $awaits, then end of input (Ctrl-D)"
    "$1" -
}

# ---- answers

# Prints the status that a text means: by the one line of it that is among the meanings. A text of several lines has to have `ending` for its last one,
# and each ends with a line feed: a text that a full disk cut short isn't one.
meaning() { # FILE
    [ -z "$(tail -c 1 "$1" 2>/dev/null)" ] || { echo unknown && return; }
    MEANINGS=$meanings ENDING=$ending awk '
        BEGIN { many = split(ENVIRON["MEANINGS"], row, "\n") }
        { last = $0; for (k = 1; k <= many; k++) if ($0 ~ "^(" substr(row[k], 3) ")$") { found++; status = substr(row[k], 1, 1) } }
        END { print (found == 1 && (NR == 1 || last ~ "^(" ENVIRON["ENDING"] ")$") ? status : "unknown") }' "$1"
}

# Sets the result of a run: what its text means, where the program ended well and the text is a known one. Answers whether that is so.
conclude() { # FILE-WITH-ITS-TEXT
    ended=$(cat "$room/ended" 2>/dev/null)
    result=$(meaning "$1")
    if [ "$ended" = 0 ] && [ "$result" != unknown ]; then return; fi
    result=3
    say "$(why_no_answer)"
    return 1
}

# A folder that is mounted noexec has no file that may be run, whatever its mode: the loader then ends with 127, the shell with 126.
why_no_answer() {
    case $ended in 126 | 127) [ -x "$room/$binary" ] || { echo "programs can't be run from $TMPDIR: set TMPDIR to another folder" && return; } ;; esac
    if ! ( echo room >"$room/last" ) 2>/dev/null; then
        echo "there is no room in $TMPDIR"
    elif [ "$ended" = 0 ]; then
        echo "the program wrote what it never should"
    else
        echo "the program failed${ended:+ with status $ended}"
    fi
}

not_delivered() {
    say "the answer couldn't be written to standard output"
    result=3
}

run_to_end() {
    rm -f "$room/ended"
    run_proved "$room/$binary"
    echo "$?" 2>/dev/null >"$room/ended"
}

# Passes one known line on as soon as it is there, after the words $1. Then it waits for the program, which reads its input on to the end.
pass_line() { # WORDS
    delivered=0
    : >"$room/wrote"
    if IFS= read -r line; then
        printf '%s\n' "$line" 2>/dev/null >"$room/wrote"
        [ "$(meaning "$room/wrote")" = unknown ] || printf '%s%s\n' "$1" "$line" 2>/dev/null || delivered=1
    fi
    cat 2>/dev/null >>"$room/wrote"
    return "$delivered"
}

# One line for each input, with its name before it where there are several, as grep does.
in_lines() { # FILE
    words=''
    [ "$several" -eq 0 ] || words="$(shown "$1"): "
    run_to_end | pass_line "$words"
    delivered=$?
    conclude "$room/wrote"
    [ "$delivered" -eq 0 ] || not_delivered
}

# Not by tee: to it a pipe that nobody reads any more is no error.
pass_text() { # FILE
    [ "$several" -eq 0 ] || printf '%s==> %s <==\n' "$gap" "$(shown "$1")" 2>/dev/null || return
    gap='
'
    cat "$room/wrote" 2>/dev/null
}

# A text for each input, with its name over it where there are several, as head does. It is passed on when the program has ended, which is when the input
# has: that the text is whole is known only then.
in_text() { # FILE
    run_to_end >"$room/wrote"
    conclude "$room/wrote" || return
    pass_text "$1" || not_delivered
}

# Bytes for one input. The program delivers them itself, and says how that went in a line on standard error, which is shown where something is amiss.
in_bytes() { # FILE
    run_to_end 2>"$room/said"
    conclude "$room/said"
    if [ "$result" != 0 ] && [ -s "$room/said" ]; then say "$(cat "$room/said")"; fi
}

# ---- commands

# Answers each input, and ends with the worst status.
answer_each() { # WAY FILE...
    way=$1 outcome_so_far=0 several=1 gap=''
    shift
    [ $# -gt 1 ] || several=0
    for file; do
        answer_one "$way" "$file"
        [ "$result" -le "$outcome_so_far" ] || outcome_so_far=$result
    done
    outcome=$outcome_so_far
    exit
}

show_usage() {
    usage 2>/dev/null || give_up "the answer couldn't be written to standard output"
    outcome=0
    exit
}

# Takes a command's words apart; what is left of them is inputs.
command_of() { # WAY MOST-INPUTS NAME-OF-PROGRAM WORDS...
    way=$1 most=$2 binary=$3 past='' dashes=0
    shift 3
    for word; do
        shift
        case $past$word in
        --) past=past ;;
        --help) show_usage ;;
        -?*) give_up "unknown option $(shown "$word"); '$program --help' says what there is" ;;
        *) set -- "$@" "$word" ;;
        esac
        case $word in - | /dev/stdin | /dev/fd/0 | /proc/self/fd/0) dashes=$((dashes + 1)) ;; esac
    done
    [ $# -gt 0 ] || set -- -
    [ "$dashes" -le 1 ] || give_up "standard input can be read once only"
    [ $# -le "$most" ] || give_up "more than $most input; '$program --help' says what there is"
    make_room
    find_kit
    find_emulator
    make_ready "$binary"
    answer_each "$way" "$@"
}

# The commands of a wrapper: the program's name, then the words that the command was given.
answer_in_lines() { begin && ending='a text of one line' && command_of in_lines 1000000 "$@"; }
answer_in_bytes() { begin && ending='a text of one line' && command_of in_bytes 1 "$@"; }
answer_in_text() { # LAST-LINE NAME-OF-PROGRAM WORDS...
    ending=$1
    shift
    begin && command_of in_text 1000000 "$@"
}
