# shellcheck shell=bash
# What the scripts that build and run something share: which tool is missing, whether the toolchain is the pinned one, builds
# that say how far they are, and what the columns of a result are. For bash; functions that build run in the repository's root.
set -o pipefail

# need TOOL ..: ends the script where one is missing
need() {
    local tool
    for tool in "$@"; do
        command -v "$tool" > /dev/null && continue
        echo "$0: $tool is missing; README.md, \"What it needs\", says what it is for" >&2
        exit 2
    done
}

# warn_toolchain: says where the toolchain is not the one that the proofs are known to pass with
warn_toolchain() {
    local pinned installed
    pinned=$(cat toolchain.txt)
    installed=$(rt version)
    [ "$installed" = "$pinned" ] || echo "$0: warning: toolchain.txt pins '$pinned', and rt is '$installed'" >&2
}

# crates_under NAME: the crate, then all crates of crates.txt that it rests on
crates_under() {
    awk -v wanted="$1" -F '[: ]+' '
        /^[a-z]/ { names[++count] = $1; $1 = $1; uses[$1] = $0 }
        END {
            marked[wanted] = 1
            # A crate stands behind those that it uses.
            for (k = count; k > 0; k--) {
                if (!(names[k] in marked)) continue
                print names[k]
                n = split(uses[names[k]], used, " ")
                for (i = 2; i <= n; i++) marked[used[i]] = 1
            }
        }' crates.txt
}

# fingerprint NAME: a number that changes with the toolchain and with every file that the crate is built from
fingerprint() {
    {
        rt version
        crates_under "$1" | sed 's,.*,crates/&,' |
            xargs -I {} find {} -type f -not -path 'crates/*/out/*' -not -path '*/must-fail/*' |
            LC_ALL=C sort | xargs sha256sum
    } | sha256sum
}

# show_progress TOTAL: reads what rt says; on a terminal one line tells how many crates are proved anew, elsewhere a line for each
# ten
show_progress() {
    local total=$1 count=0 seen=' ' line name=
    while IFS= read -r line; do
        # The verdict on a crate follows the line that names it.
        case $line in
            'crate '*': modules '*)
                name=${line#crate }
                name=${name%%:*}
                continue
                ;;
            'logic=proved '*) ;;
            *) continue ;;
        esac
        case $seen in *" $name "*) continue ;; esac
        seen="$seen$name "
        count=$((count + 1))
        if [ -t 2 ]; then
            printf '\r  %d of %d crates proved: %-30s' "$count" "$total" "$name" >&2
        elif [ $((count % 10)) -eq 0 ]; then
            echo "  $count of $total crates proved" >&2
        fi
    done
    [ ! -t 2 ] || printf '\r%70s\r' '' >&2
}

# renew NAME OUT COMMAND ..: where OUT is missing, or was built from other sources or by another toolchain, runs the command,
# which proves the crate and builds OUT
renew() {
    local name=$1 out=$2 log=target/build/$1.log stamp=target/build/$1.stamp sources total
    shift 2
    need rt awk sha256sum
    sources=$(fingerprint "$name")
    if [ -e "$out" ] && [ ! "$out" -nt "$stamp" ] && [ "$(cat "$stamp")" = "$sources" ]; then return; fi
    mkdir -p target/build
    rm -f "$stamp"
    total=$(crates_under "$name" | wc -l)
    echo "proving $total crates to build $out; from nothing this takes many minutes (log: $log)" >&2
    if ! "$@" 2>&1 | tee "$log" | show_progress "$total"; then
        tail -n 12 "$log" | cut -c 1-200 >&2
        echo "$0: $out is not built; the whole log is $log" >&2
        exit 1
    fi
    echo "$sources" > "$stamp"
}

# What is built runs on every x86-64 processor; rt's own choice wants a later one.
cpu=x86-64

# make_archive NAME: a crate is a library or a static library, so NAME_c exports the functions of NAME.
make_archive() {
    (cd "crates/$1_c" && rt lib --cpu "$cpu") &&
        mkdir -p target/staticlib && cp "crates/$1_c/out/lib$1_c.a" "target/staticlib/lib$1.a"
}

# make_program NAME: rt builds a program only to run it, so it gets the input and arguments that stand beside its sources.
make_program() {
    (
        cd "crates/$1" || exit 1
        arguments=()
        [ ! -f args ] || mapfile -t arguments < args
        rt run --cpu "$cpu" -- "${arguments[@]}" < stdin
    ) && mkdir -p target/bin && cp "crates/$1/out/$1" "target/bin/$1"
}

renew_archive() {
    renew "$1_c" "target/staticlib/lib$1.a" make_archive "$1"
}

renew_drill() {
    renew drill target/bin/drill make_program drill
}

renew_delivery_lists() {
    renew delivery_lists target/bin/delivery_lists make_program delivery_lists
}

# print_result TITLE LINES [COLUMN]: the lines that the drill program or the host printed, with a heading; COLUMN is the name
# of a further one
print_result() {
    cat << END
$1:

number	exit	closed	turns	packs in force${3:+	$3}
$2

number          the concentrator; one that lies or stays silent has no line
exit            the rule that named its set, 1 to 3; 0 where none did
closed          1 where a set is in force there, else 0
turns           how often it did something
packs in force  their numbers in hexadecimal, - for none
END
}
