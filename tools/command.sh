# What ./page, ./walk, ./query and ./install share; each sources it. $here is the folder of the command's own file, symbolic links followed: the repository, or PREFIX/bin of an
# installed command, which never builds.
#
# The programs always end with status 0: what one says on standard error tells how it ended. Nothing: done. Lines that begin with its own name and a colon: input or output failed. A line that
# begins `usage: `: its words are no call. Any other line, alone: the sentence of a refusal.
# shellcheck shell=sh
set -uf
newline='
'
name=${0##*/}
statuses='Status: 0 done, 1 refused, 2 usage, 3 input or output failed.'
if [ -f "$here/crates.txt" ]; then
    installed='' programs=$here/target/commands
else
    installed=yes programs=$here/../libexec/limbatue
fi

say() { printf '%s\n' "$name: $1" >&2; }

fail() { # MESSAGE
    say "$1"
    exit 3
}

usage_line() { printf '%s\n' "usage: $0 $words" >&2; }

usage() {
    usage_line
    exit 2
}

# Does what the first word asks for, where it is an option; $options is how many words that were. $words and $help are the command's own.
options() { # WORD..
    options=0
    case ${1-} in
    -h | --help)
        writable
        printf '%s\n' "usage: $0 $words$newline$newline$help" 2>/dev/null || fail 'can not write standard output'
        exit 0
        ;;
    --) options=1 ;;
    -?*) usage ;;
    esac
}

# ---- Standard input and output, and sheets. A file descriptor that is closed can not be duplicated.

writable() { { true; } 2>/dev/null 3>&1 || fail 'standard output is closed'; }

# Whether a sheet can be read, as far as can be told without opening it (a pipe can be opened once).
readable() { # SHEET
    if [ "$1" = - ]; then
        if ! { true; } 2>/dev/null 3<&0; then say 'standard input is closed'
        elif [ -d /dev/stdin ]; then say 'can not read standard input: it is a directory'
        else return 0; fi
    elif [ ! -e "$1" ]; then say "can not read $1: there is no such file"
    elif [ -d "$1" ]; then say "can not read $1: it is a directory"
    elif [ ! -r "$1" ]; then say "can not read $1: this user may not"
    else return 0; fi
    return 1
}

# ---- What is built. target/commands/NAME is a copy of the program that rt built, moved into place, so that nobody runs one that is half written; target/commands/NAME.built, written after
# it, has the sources that it was built of with their sizes and times as they were before the build started, and the kit.

# Prints the size and the time (to the nanosecond) of each source, and nothing of one that is not there.
times_of() { # SOURCES, one to a line
    export LC_ALL=C
    IFS=$newline
    # shellcheck disable=SC2086
    cd -- "$here/" && exec stat -c '%s %.9Y' -- $1 2>/dev/null
}

# Whether the rt on the PATH, if there is one, is that of the last build, and its kit is the same.
same_kit() {
    found='' kept=$IFS IFS=:
    for folder in ${PATH-}; do
        if [ -f "$folder/rt" ] && [ -x "$folder/rt" ]; then
            found=$folder/rt
            break
        fi
    done
    IFS=$kept
    # shellcheck disable=SC3013
    [ -z "$found" ] || { [ "$found" -ef "$toolchain" ] && read -r now 2>/dev/null <"${toolchain%/*}/../KIT-ID" && [ "$now" = "$kit" ]; }
}

# Whether NAME is built, of the sources as they are. A file that is new or gone shows in its folder's time.
up_to_date() { # NAME
    [ -f "$programs/$1" ] && [ -r "$programs/$1.built" ] || return 1
    kit='' toolchain='' sources='' times=''
    command . "$programs/$1.built"
    [ -n "$times" ] && same_kit && [ "$(times_of "$sources")" = "$times" ]
}

# Prints the crates that NAME needs, itself the last, in the order in which rt proves them: each crate's libraries as crates.txt lists them, those that one needs before it.
plan() { # NAME
    awk -v wanted="$1" '
        function visit(crate,    list, count, i) {
            if (crate in seen) return
            seen[crate] = 1
            count = split(needs[crate], list, " ")
            for (i = 1; i <= count; i++) if (list[i] in needs) visit(list[i])
            order = order (order == "" ? "" : " ") crate
        }
        { sub(/#.*/, "") }
        /:/ { head = $0; sub(/:.*/, "", head); split(head, words, " "); sub(/[^:]*:/, ""); needs[words[1]] = $0 }
        END {
            if (!(wanted in needs)) exit 1
            visit(wanted)
            print order
        }' "$here/crates.txt"
}

# Prints the sources of the crates of a plan: crates.txt, and the crates' src, specs and proofs (whether they are there or not) with all below them. Not the crates' own folders: rt makes out/ there.
sources_of() { # PLAN
    cd -- "$here/" || return
    echo crates.txt
    for crate in $1; do
        for part in src specs proofs; do
            if [ -d "crates/$crate/$part" ]; then find "crates/$crate/$part"; else echo "crates/$crate/$part"; fi
        done
    done
}

# Says which crate is being proved now, the first time that rt begins with it.
next_crate() { # CRATE
    case " $rest " in
    *" $1 "*) ;;
    *) return 0 ;;
    esac
    rest=" $rest "
    rest=${rest#*" $1 "}
    # shellcheck disable=SC2086
    left=$(set -- $rest && echo $#)
    say "proving $1 ($((crates - left)) of $crates, $left left)"
}

# Reads what rt writes and says which crate is being proved, from the lines `rt: chose --jobs N for CRATE`, with which rt begins each that is not built of its sources as they are. The last line read is
# `status N`, and N is what is returned.
progress() { # PLAN
    rest=$1 status=3
    # shellcheck disable=SC2086
    crates=$(set -- $1 && echo $#)
    while IFS= read -r line; do
        printf '%s\n' "$line" >&4
        case $line in
        'rt: chose --jobs '*' for '*) next_crate "${line##* }" ;;
        'status '*) status=${line#status } ;;
        esac
    done
    return "$status"
}

# Builds NAME by a command, which is run in a folder of the repository and writes PRODUCT (from the top). Nobody else does so at the same time.
build() { # NAME PRODUCT FOLDER WORD..
    made=$1 product=$2 at=$3
    order=$(plan "$made") || fail "crates.txt has no crate $made"
    shift 3
    sources=$(sources_of "$order")
    times=$(times_of "$sources")
    kit=$(rt version) toolchain=$(readlink -f -- "$(command -v rt)")
    log=$programs/$made.log
    say "building $made: some minutes, once, since all that it depends on is proved first"
    if ! { (cd -- "$here/$at" && "$@" </dev/null 2>&1); echo "status $?"; } | progress "$order" 4>"$log"; then
        tail -n 16 "$log" >&2
        fail "the build of $made failed; all that was said is in $log"
    fi
    rm -f "$programs/$made.built"
    { cp -- "$here/$product" "$programs/$made.new" && mv -f -- "$programs/$made.new" "$programs/$made"; } || fail "can not write $programs/$made"
    for text in kit toolchain sources times; do
        eval "value=\$$text"
        printf "%s='%s'\n" "$text" "$(printf '%s\n' "$value" | sed "s/'/'\\\\''/g")"
    done >"$programs/$made.built.new" && mv -f -- "$programs/$made.built.new" "$programs/$made.built" || fail "can not write $programs/$made.built"
}

# Builds NAME, unless another process did so while this one waited for it.
build_alone() { # NAME PRODUCT FOLDER WORD..
    if ! flock -n 9; then
        say 'another build is running here: waiting for it'
        flock 9
    fi
    up_to_date "$1" || build "$@"
}

# Has NAME built, of the sources as they are.
ready_by() { # NAME PRODUCT FOLDER WORD..
    if up_to_date "$1"; then return; fi
    mkdir -p "$programs" 2>/dev/null
    [ -w "$programs" ] || fail "$1 is not built of the sources as they are, and this user may not write in $here/target: its owner runs $name once"
    command -v rt >/dev/null || fail "$1 is not built of the sources as they are, and rt is not on the PATH (the Rattle kit is expected in /opt/rattle: PATH=\$PATH:/opt/rattle/bin)"
    command -v flock >/dev/null || fail 'flock (of util-linux) is needed to build'
    build_alone "$@" 9>>"$programs/lock" || fail "can not write $programs/lock"
}

# Has a program built, or installed. (rt builds a program by `rt run`, which then runs it: here on an empty standard input.)
ready() { # PROGRAM
    if [ -z "$installed" ]; then
        ready_by "$1" "crates/$1/out/$1" "crates/$1" rt run
    elif [ ! -x "$programs/$1" ]; then
        fail "the program $1 is not installed in $programs"
    fi
}

# ---- What is asked of a program.

# Runs a program on the sheet that is standard input; what it prints goes straight through.
run() { # PROGRAM WORD..
    program=$programs/$1
    shift
    said=$("$program" "$@" 2>&1 >&3 3>&-)
    ended=$?
}

# Runs a program on a sheet, writes what it said to standard error, with the sheet's name before it, and makes $status of it.
answer() { # PROGRAM SHEET WORD..
    asked=$1 sheet=$2 ended='' said='' status=3
    shift 2
    if [ "$sheet" = - ]; then
        sheet='standard input'
        run "$asked" "$@" 2>/dev/null 3>&1
    else
        run "$asked" "$@" 2>/dev/null 3>&1 <"$sheet"
    fi
    if [ "$ended" = 0 ]; then
        case $newline$said in
        "$newline") status=0 ;;
        *"$newline$asked: "*) ;;
        "${newline}usage: "*) status=2 ;;
        "$newline"*"$newline"*) ;;
        *) status=1 ;;
        esac
    fi
    case $said in
    '') ;;
    'usage: '*)
        usage_line
        # The program's own line tells the verbs.
        case $words in *VERB*) printf '%s\n' "$said" >&2 ;; esac
        ;;
    *) printf '%s\n' "$sheet: $said" >&2 ;;
    esac
    if [ -z "$ended" ]; then say "can not open $sheet"
    elif [ "$ended" -gt 128 ]; then say "$sheet: the program $asked was ended by signal $((ended - 128))"
    elif [ "$ended" -ne 0 ]; then say "$sheet: the program $asked ended with status $ended"
    fi
}

# Asks query for one answer.
ask() { # SHEET VERB NUMBER..
    writable
    readable "$1" || exit 3
    ready query
    answer query "$@"
    exit "$status"
}
