# How ./test runs its parts, one at a time or side by side. It sources this after examples/harness.sh, whose $room and
# counts this uses. $times is a file to which each part adds a line `took SECONDS PROCESSOR PART`, as tools/gate.py has it.
results=()
scripts=()
lanes=$((($(nproc) * 3 + 2) / 4)) # how many scripts run at a time: two of two processors, three of four, as some have several processes
groups=() # the processes that lead those beside this one

# Adds what a part's last line counts. The part has failed where it has no such line or counts nothing, and where its
# status says so though its line doesn't.
judge_part() { # the part, its status, its seconds and those of processors, the file of its output
    local last before=$failed
    last=$(tail -n 1 "$5")
    if ! add_counts "$last"; then
        failed=$((failed + 1))
        last="no result, status $2: counted as failed"
    elif [ "$2" != 0 ] && [ "$failed" = "$before" ]; then
        failed=$((failed + 1))
        last="$last, but it ended in status $2: counted as failed"
    fi
    results+=("$1: $last")
    mapfile -t -O "${#results[@]}" results < <(grep '^skipped: ' "$5" | sed 's/^/    /')
    [ "$3" = none ] || echo "took $3 $4 $1" >>"$times"
}

# Runs a part whose seconds it tells itself.
run_part() { # a command line
    echo "==== $*"
    "$@" </dev/null 2>&1 | tee "$room/output"
    judge_part "$*" "${PIPESTATUS[0]}" none none "$room/output"
}

await() { # a file
    until [ -e "$1" ]; do sleep 0.2; done
}

# Runs one of the scripts, into files of its own: its process, its output, and once it has ended its status, its seconds, and
# those of processors that it and what it waited for took.
# Of those that begin with the same `GROUP:` one runs at a time.
run_aside() { # its number
    local group='' words status TIMEFORMAT='%0R %0U %0S'
    read -r -a words <<<"${scripts[$1]}"
    echo "$BASHPID" >"$room/part$1.process"
    : >"$room/part$1.output"
    if [[ ${words[0]} == *: ]]; then
        group=${words[0]%:}
        words=("${words[@]:1}")
        exec 9>"$room/group_$group"
        flock 9
    fi
    { time "${words[@]}" </dev/null >"$room/part$1.output" 2>&1 9>&-; } 2>"$room/part$1.seconds"
    status=$?
    echo "$status $(tail -n 1 "$room/part$1.seconds")" >"$room/part$1.new"
    mv "$room/part$1.new" "$room/part$1.ended"
}

# Starts all scripts in their order, `lanes` of them at a time. A line `wait NAME` among them holds up those after it
# until there is a file $room/NAME.
start_scripts() {
    local number
    for number in "${!scripts[@]}"; do
        if [[ ${scripts[number]} == "wait "* ]]; then
            await "$room/${scripts[number]#wait }"
            continue
        fi
        while (($(jobs -rp | wc -l) >= lanes)); do sleep 0.2; done
        run_aside "$number" &
    done
    wait
}

# Starts a command beside this one, in a group of processes of its own, which ends with this.
start_group() { # a command
    set -m
    "$@" &
    groups+=($!)
    set +m
    trap 'stop_groups; rm -rf "$room"' EXIT
}

stop_groups() {
    local leader
    for leader in "${groups[@]}"; do
        kill -- "-$leader" 2>"$room/stopped" || true
        wait "$leader" 2>"$room/stopped" || true # so that none of it writes into $room any more
    done
}

wait_for_groups() {
    wait "${groups[@]}"
    groups=()
}

make_and_tell() { # as start_making
    local seconds user system TIMEFORMAT='%0R %0U %0S'
    { time "${@:2}" 2>&1; } 2>"$room/$1.seconds"
    read -r seconds user system <"$room/$1.seconds"
    echo "took $seconds $((user + system)) making $1" >>"$times"
    touch "$room/$1"
}

# Starts a command that makes what scripts need: a line `wait NAME` among them waits for its end.
start_making() { # NAME; a command
    start_group make_and_tell "$@" </dev/null
}

# Runs all that `scripts` lists, and prints and counts each in their order, the first that hasn't ended as it comes.
run_scripts() {
    local number status seconds user system words
    start_group start_scripts
    for number in "${!scripts[@]}"; do
        [[ ${scripts[number]} != "wait "* ]] || continue
        read -r -a words <<<"${scripts[number]}"
        [[ ${words[0]} != *: ]] || words=("${words[@]:1}")
        echo "==== ${words[*]}"
        await "$room/part$number.output"
        tail -s 0.2 -n +1 -f --pid="$(<"$room/part$number.process")" "$room/part$number.output"
        status=none seconds=0 user=0 system=0 # where it was killed
        [ ! -e "$room/part$number.ended" ] || read -r status seconds user system <"$room/part$number.ended"
        judge_part "${words[*]}" "$status" "$seconds" $((user + system)) "$room/part$number.output"
    done
    wait_for_groups
}
