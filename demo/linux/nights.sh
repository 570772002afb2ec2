# The two nights of demo/linux/run: the emulator killed, and the stores in the wrong order. Sourced by it.

# The parts of the mapped file as files of their own, as the layout beside it says.
take_apart() { # folder
    local name place bytes
    while read -r name place bytes; do
        tail -c +$((place + 1)) "$1/state" | head -c "$bytes" >"$1/$name"
    done <"$1/state.layout"
}

# The program that looks at the files; another one may be named by INSPECT.
inspect() { if [ -n "${INSPECT:-}" ]; then "$INSPECT" "$@"; else run_program inspect "$@"; fi; }

# Accepted by every call's own check of kept memory, second table, recorder and queue, as `inspect` tells it. The queue is as long
# as the guest has made it.
accepted() { # folder
    local slots
    take_apart "$1"
    slots=$(inspect "$1/kept" | sed -n 's/.* LOG2SIZE .*, slots: //p')
    truncate -s $((16 * slots)) "$1/queue"
    inspect "$1/kept" --queue "$1/queue" --table "$1/table" --events "$1/events" --features 25 >"$1/inspected" 2>&1
    grep -q 'accepted by the unit' "$1/inspected" && ! grep -q refused "$1/inspected"
}

# Once the guest works with its disk and card, so many milliseconds later.
kill_once() { # folder, milliseconds
    local pid
    : >"$1/log"
    TAHVENNO_STATE=$1/state TAHVENNO_CUTS=$2 "${machine[@]}" -append "$words quiet" >"$1/log" 2>&1 </dev/null &
    pid=$!
    until grep -qa '^demo: begin' "$1/log"; do
        kill -0 $pid || stop "the guest does not come to its work; see $1/log"
        sleep 0.1
    done
    sleep "$(($2 / 1000)).$(printf %03d $(($2 % 1000)))"
    kill -9 $pid || stop "the guest came to its end before it was killed"
    wait $pid 2>/dev/null
}

kills() { # seed, count
    local i waiting=0
    RANDOM=$1
    [ -n "${INSPECT:-}" ] || build_program inspect
    new_folder kills
    for ((i = 1; i <= $2; i++)); do
        kill_once "$runs/kills" $((1 + RANDOM % 6000))
        accepted "$runs/kills" || stop "kill $i leaves what is not accepted; see $runs/kills"
        grep -q 'commands that wait: 0' "$runs/kills/inspected" || waiting=$((waiting + 1))
    done
    echo "kills: $2 times killed, $2 times accepted; commands waited in $waiting of them"
}

fire_night() { # seed
    local name=fire-$1 night=(TAHVENNO_CUTS="$1" TAHVENNO_ONE_IN=20 TAHVENNO_WATCH=1)
    patience=90 on_unit "$name" "" TAHVENNO_ORDER=rd-first "${night[@]}"
    echo "RD before the rows: $(cuts_of "$name")"
    echo "  $(counted "$name" stale_rows) rows stale after their command was consumed; used $(counted "$name" stale_uses) times," \
        "$(counted "$name" stale_uses_elsewhere) of them for an address that the guest's tables do not give"
    echo "  the first use came $(counted "$name" first_stale_use_us) us and $(counted "$name" first_stale_use_hits) accesses after" \
        "the command; the soonest of all $(counted "$name" soonest_stale_use_us) us"
    echo "  the guest: $(said "$name" 'sum .* good' | wc -l) of $sums sums good, $(said "$name" 'sum .* BAD' | wc -l) bad," \
        "$([ -n "$(said "$name" done)" ] && echo 'came to its end' || echo 'did not come to its end')"
    happened "$name" cuts_run stale_rows stale_uses
    on_unit "$name-none" "" "${night[@]}" && check "$name-none"
    happened "$name-none" cuts_run cuts_fill cuts_answer_lost
    echo "the unit: $(cuts_of "$name-none"); all sums good"
    watched "$name-none"
    none_stale "$name-none"
}
