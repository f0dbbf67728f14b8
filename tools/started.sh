# What the scripts share that start a proved program, ./listing and ./mend. Each sources this file from its own folder, with the program's name in
# `program`, that folder in `project`, and a function `usage` that prints the help.

# The faults of a sheet, by their numbers, in the order in which they are told.
faults=(
    [1]="fewer than 32 bytes"
    [2]="an item count above its limit"
    [14]="a body starts late, leaving a gap"
    [15]="a body starts early, running into the one before"
    [4]="the sheet doesn't end with its last body"
    [5]="an opening count above 1,000,000"
    [6]="a weight above 1,000"
    [7]="an event names no transition"
    [8]="a pair names no event"
    [9]="a pair of an event with itself"
    [10]="a pair given twice"
    [11]="the order has a cycle"
)

# What every help says of the building.
at_the_first_call="\
The program behind it is proved and built at the first call, which takes some minutes, and again after its sources change. That needs
the Rattle toolchain (rt). Standard error says how far it is."

# say MESSAGE: a line on standard error; where that can't be written, the exit status is left
say() {
    echo "$program: $1" >&2 || :
}

# fail MESSAGE: there is no result
fail() {
    say "$1"
    exit 2
}

# words_of NUMBER: the words of a fault
words_of() {
    echo "${faults[$1]-a fault without a name}"
}

# crates_to_prove: the names of the crates that the program needs and its own, each after those that it needs, which is the order in which rt proves them
crates_to_prove() {
    awk -v program="$program" '
        { sub(/#.*/, ""); at = index($0, ":") }
        at { name = substr($0, 1, at - 1); sub(/^[ \t]+/, "", name); sub(/[ \t].*/, "", name); needs[name] = substr($0, at + 1) }
        function visit(name,    list, count, k) {
            if (!(name in needs) || name in seen) return
            seen[name] = 1
            count = split(needs[name], list, " ")
            for (k = 1; k <= count; k++) visit(list[k])
            print name
        }
        END { visit(program) }' crates.txt
}

# show_progress NAMES: how many of these crates are proved, from what rt prints, on standard error: on a terminal in one line, else a line for every
# fifth. Of a crate that an earlier build has proved rt says nothing, so the place of the crate that is proved tells how many are.
show_progress() {
    local names=($1) of= count=0 before=0 name= line k
    [ ${#names[@]} -eq 0 ] || of=" of ${#names[@]}"
    while IFS= read -r line; do
        if [[ $line =~ ^crate\ ([a-z0-9_]+):\ modules\  ]]; then
            name=${BASH_REMATCH[1]}
        fi
        [[ $line =~ ^logic=proved\  ]] || continue
        count=$((count + 1))
        for k in "${!names[@]}"; do
            [ "${names[k]}" != "$name" ] || count=$((k + 1))
        done
        name=
        if [ -t 2 ]; then
            printf '\r%s: %d%s crates proved' "$program" "$count" "$of" >&2 || :
        elif [ $((count / 5)) -gt $((before / 5)) ] || [ "$count" -eq ${#names[@]} ]; then
            say "$count$of crates proved"
        fi
        before=$count
    done
    if [ -t 2 ] && [ "$count" -gt 0 ]; then
        echo >&2 || :
    fi
}

# is_program: the program is there. A machine that goes down may leave it empty, and the shell would run an empty file without a word.
is_program() {
    [ -x "target/bin/$program" ] && [ -s "target/bin/$program" ]
}

# is_built: the program is there, it was proved and run, and no source is newer. A crate's out/ is what rt makes of its sources, and making it changes the
# time of the crate's own folder.
is_built() {
    is_program && [ -e "target/stamp/$program" ] && [ ! crates.txt -nt "target/bin/$program" ] &&
        [ -z "$(find crates -mindepth 2 -path 'crates/*/out' ! -path 'crates/*/*/out' -prune -o -newer "target/bin/$program" -print -quit)" ]
}

# prove: proves, builds and runs the program, on an empty sheet. What the program prints goes nowhere.
prove() (
    trap - PIPE XFSZ
    CDPATH= cd "crates/$program" && exec rt run </dev/null 2>&1 >/dev/null
)

# put_program: puts the program that rt has built where it is started. It appears as a whole, as old as the time at which its build began.
put_program() {
    local made=crates/$program/out/$program
    [ -x "$made" ] && [ -s "$made" ] && mkdir -p target/bin target/stamp && cp "$made" "$new" && touch -r "$begun" "$new" &&
        mv -f "$new" "target/bin/$program" && : >"target/stamp/$program"
}

# build: proves and builds the program. Of two calls at once the second waits, also where they build different programs, as in ./mend SHEET | ./listing -.
# What a build that was interrupted has proved isn't proved again.
build() (
    command -v rt >/dev/null || fail "the program isn't built, and building it needs the Rattle toolchain (rt), which isn't on the PATH"
    unwritable="the program has to be built, and $PWD/target can't be written"
    log=target/$program.log begun=target/$program.begun new=target/$program.new
    { mkdir -p target && exec 9>>target/started.lock; } 2>/dev/null || fail "$unwritable"
    if command -v flock >/dev/null && ! flock -n 9; then
        say "another call builds the program; this one waits for it"
        flock 9
        ! is_built || exit 0
    fi
    { touch "$begun" && : >"$log"; } 2>/dev/null || fail "$unwritable"
    rm -f "target/stamp/$program" || fail "$unwritable"
    say "proving and building the program; the first time this takes some minutes (log: $PWD/$log)"
    names=$(crates_to_prove) || names=
    prove | tee "$log" | show_progress "$names" && put_program 2>>"$log" || fail "the program wasn't built; see $PWD/$log"
)

# is_text: standard input is a file that holds something, and no control characters but tabs and line ends. A sheet has zeros in its table.
is_text() {
    local others
    [ -f /dev/stdin ] && [ -s /dev/stdin ] || return
    others=$(head -c 21281 /dev/stdin | LC_ALL=C tr -d '\t\n\r\40-\176\200-\377' | wc -c) && [ "$others" -eq 0 ]
}

# refuse MESSAGE: the sheet is refused, and what may help
refuse() {
    say "$1"
    if is_text 2>/dev/null; then
        say "this looks like a text; tools/sheet write TEXT SHEET writes a sheet from a text"
    fi
    exit 1
}

# open_sheet WORD...: takes the words of the call. The sheet becomes standard input, and the project's folder the one to work in.
open_sheet() {
    # A reader that is gone, and a limit on the size of files, are failed writes like any other. A closed descriptor would be taken by the next
    # file or pipe that is opened.
    trap '' PIPE XFSZ
    true 3>&2 || exec 2>/dev/null
    { true 3>&1; } 2>/dev/null || fail "standard output is closed"
    case ${1-} in
    -h | --help)
        usage 2>/dev/null || fail "standard output can't be written"
        exit 0
        ;;
    --) shift ;;
    -) ;;
    -*) fail "there is no option '$1'; see ./$program --help" ;;
    esac
    [ -n "${1-}" ] || fail "which sheet? see ./$program --help"
    [ $# -eq 1 ] || fail "one sheet at a time; see ./$program --help"
    if [ "$1" = - ]; then
        { true 3<&0; } 2>/dev/null || fail "standard input is closed"
    else
        [ -e "$1" ] || fail "there is no file $1"
        [ ! -d "$1" ] || fail "$1 is a directory"
        { exec <"$1"; } 2>/dev/null || fail "$1 can't be read"
    fi
    cd "$project" || fail "the project's folder can't be found"
}

# have_program: sees to it that the program is built
have_program() {
    is_built || build || exit 2
}
