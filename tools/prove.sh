# What ./walkprint and tools/library share: where the kit is, whether a thing is proved already, and proving it with a line a crate. It is read by `.`, in
# POSIX sh; who reads it has set `me`, the name that its messages begin with, and `root`, the repository's folder.

say() { printf '%s: %s\n' "$me" "$*" >&2; }
fail() { # STATUS MESSAGE
    status=$1
    shift
    say "$*"
    exit "$status"
}

# Sets `kit`, the folder of the Rattle kit.
find_kit() {
    if [ -n "${RATTLE_HOME:-}" ]; then
        kit=$RATTLE_HOME
        [ -x "$kit/bin/rt" ] || fail 1 "RATTLE_HOME is $kit, and that is no folder of the Rattle kit: it has no bin/rt"
    else
        command -v rt >/dev/null || fail 1 "the Rattle kit is not here: put its rt on the path, or its folder into RATTLE_HOME"
        guide=$(rt doc </dev/null 2>&1) || :
        kit=$(dirname "$guide")
        [ -x "$kit/bin/rt" ] || fail 1 "the rt on the path, $(command -v rt), leads to no Rattle kit: put the kit's folder into RATTLE_HOME. It says: $guide"
    fi
    kit=$(CDPATH= cd -- "$kit" && pwd -P)
    machine=$(uname -m)
    [ "$machine" = x86_64 ] || fail 1 "the Rattle kit at $kit is for x86_64, and has nothing for this machine, $machine"
}

# Sets `crates`, the lines of crates.txt for the crates that NAME stands on and then for NAME, in the order in which rt proves them, their `names` and `count`.
stand_on() { # NAME
    crates=$(NAME=$1 awk '
        function visit(n,    part, k, m) {
            if (!(n in uses) || n in seen) return
            seen[n]
            m = split(uses[n], part, " ")
            for (k = 1; k <= m; k++) visit(part[k])
            print line[n]
        }
        { sub(/#.*/, ""); i = index($0, ":") }
        i { n = substr($0, 1, i - 1); sub(/[ \t].*/, "", n); uses[n] = substr($0, i + 1); line[n] = $0 }
        END { visit(ENVIRON["NAME"]) }' "$root/crates.txt")
    [ -n "$crates" ] || fail 2 "crates.txt has no crate $1"
    names=$(printf '%s\n' "$crates" | sed 's/[ :].*//')
    count=$(printf '%s\n' "$names" | wc -l | tr -d ' ')
}

# Prints one word for all that a proof of `crates` is made of: the kit and the crates' files.
made_of() {
    (
        cd "$root"
        {
            cat "$kit/KIT-ID"
            printf '%s\n' "$crates"
            for crate in $names; do
                find "crates/$crate" \( -path "crates/$crate/must-fail" -o -path "crates/$crate/out" \) -prune -o -type f -print
            done | sort | tr '\n' '\0' | xargs -0 sha256sum
        } | sha256sum | cut -d ' ' -f 1
    )
}

# Whether OUTPUT is what was made of the files as they are. Its stamp has the word of what it was made of, and its own sum: a stamp that is old, of another
# kit, or of another file than the one that stands there is no stamp.
stamp_for() { printf '%s %s\n' "$2" "$(sha256sum <"$1" | cut -d ' ' -f 1)"; } # OUTPUT WORD
is_proved() { # OUTPUT WORD
    [ -f "$1" ] && [ -f "$1.proved" ] && [ "$(cat "$1.proved")" = "$(stamp_for "$1" "$2")" ]
}

# A line for each crate as soon as rt has proved it, with its place among them all, and what rt says of failures. A crate that has not changed gets none. What
# rt says to who writes proofs, and of how it goes about them, is for the log alone.
progress() {
    crate=
    while IFS= read -r line; do
        case $line in
        'rt: chose --jobs '*) crate=${line##* } ;;
        'logic=proved '*) printf '[%s/%s] %s proved\n' "$(printf '%s\n' "$names" | grep -nxF -e "$crate" | cut -d : -f 1)" "$count" "$crate" ;;
        'rattle build: nothing was built'*) printf '%s NOT PROVED\n' "$crate" ;;
        'rt: '*': begins with '* | 'rt: rt '* | 'rt: running '* | 'rt: nothing has changed '*) ;;
        'rt: '*) printf '%s\n' "${line#rt: }" ;;
        esac
    done
}

warn_of_kit() {
    pinned=$(cat "$root/KIT" 2>/dev/null) || pinned='no kit (there is no file KIT)'
    here=$("$kit/bin/rt" version </dev/null)
    [ "$pinned" = "$here" ] || say "warning: the kit here is $here, and the proofs were written for $pinned"
}

# Runs `rt VERB` in a crate's folder, which proves what has changed and writes OUTPUT in the folder's out/, tells of each crate on standard error, and stamps
# OUTPUT. All that the prover says goes to a log. OUTPUT and its stamp go first and the stamp comes last, so that whatever stops this in between leaves none,
# and what is stamped is what rt wrote.
prove() { # OUTPUT WORD VERB
    output=$1 word=$2 verb=$3 log=$root/target/$(basename "$1" .a).log
    { mkdir -p "${output%/*}" "$root/target" && rm -f "$output.proved" "$output" && touch "$log"; } 2>/dev/null ||
        fail 1 "cannot write in $root/target or ${output%/*}, where the proofs go"
    warn_of_kit
    new=0
    for crate in $names; do [ -e "$root/crates/$crate/out/rlib/stamp" ] || new=$((new + 1)); done
    case $new in
    0 | 1) say "looking through $count crates, and proving what has changed" ;;
    *) say "proving $count crates, some minutes" ;;
    esac
    status=$({ { cd "${output%/out/*}" && "$kit/bin/rt" "$verb" </dev/null 2>&1 3>&- && ended=0 || ended=$?; echo "$ended" >&3; } | tee "$log" | progress >&2; } 3>&1)
    if [ "$status" != 0 ] || [ ! -f "$output" ]; then fail 1 "not proved; $log has what the prover said"; fi
    stamp_for "$output" "$word" >"$output.proved.new" && mv "$output.proved.new" "$output.proved"
}
