# What demo/linux/run reads of a boot's log, report and times, and says of it. Sourced by it.

runs=$out/runs
sums=11

said() { # name, pattern
    tr -d '\r' <"$runs/$1/log" | grep -a "^demo: $2"
}

counted() { # name, what
    sed -n "s/^$2=//p" "$runs/$1/report"
}

# A boot in which everything came back as it went, and the guest saw no fault, and no command error but those that were provoked.
check() { # name, command errors that were provoked, none unless said
    if [ "$(said "$1" 'sum .* good' | wc -l)" -ne "$sums" ] || [ -z "$(said "$1" done)" ] || [ -z "$(said "$1" 'faults 0$')" ] ||
        [ -z "$(said "$1" "command errors ${2:-0}\$")" ]; then
        tail -n 20 "$runs/$1/log"
        stop "$1 did not end well; see $runs/$1/log"
    fi
}

exactly() { # name, what, number
    [ "$(counted "$1" "$2")" = "$3" ] || stop "$1: $2 is '$(counted "$1" "$2")' and not '$3'"
}

# A count of nothing would let any check pass.
happened() { # name, what..
    local name=$1 what
    shift
    for what in "$@"; do
        [ "$(counted "$name" "$what")" -gt 0 ] 2>/dev/null || stop "$name: nothing was counted of $what"
    done
}

none_stale() { # name
    local what
    happened "$1" hits_checked_by_walk final_rows_as_twin
    for what in stale_rows stale_uses final_rows_otherwise rows_missing_beside_twin; do exactly "$1" $what 0; done
}

# There were faults, one for each access that was denied; every record that was written came to the guest, and there is one for each
# fault at least.
none_lost() { # name
    happened "$1" faults
    exactly "$1" faults "$(counted "$1" accesses_denied)"
    exactly "$1" events_taken_by_guest "$(counted "$1" events)"
    [ "$(counted "$1" events)" -ge "$(counted "$1" faults)" ] || stop "$1: a record is lost"
}

# Of a guest that was offered messages: each of its CMD_SYNCs got one, and pulsed the wire as well.
both_ways() { # name
    happened "$1" sync_messages
    exactly "$1" sync_wired "$(counted "$1" sync_messages)"
}

# The seconds that the workload took by the guest's clock, and the processor's seconds of the whole boot.
seconds() { # name
    echo "$(said "$1" begin | cut -d' ' -f3) $(said "$1" end | cut -d' ' -f3) $(cat "$runs/$1/time")" |
        awk '{ split($4, u, "="); split($5, s, "="); printf "work %.1f s, processor %.1f s", $2 - $1, u[2] + s[2] }'
}

served() { # name
    echo "  commands served: $(sed -n 's/^command_\(..\)=\(.*\)/\1 \2/p' "$runs/$1/report" | paste -sd, | sed 's/,/, /g')"
    echo "  rows filled: STE $(counted "$1" filled_ste), CD $(counted "$1" filled_cd), stage 1 $(counted "$1" filled_stage1)," \
        "of these $(counted "$1" filled_read_only) read-only; removed: $(counted "$1" rows_removed)"
    echo "  accesses answered by rows: $(counted "$1" hits); misses: STE $(counted "$1" misses_ste), CD $(counted "$1" misses_cd)," \
        "stage 1 $(counted "$1" misses_stage1); answered by the walk, no row being free: $(counted "$1" answered_by_walk_no_room)"
}

faults_of() { # name
    echo "$(counted "$1" faults) faults, $(counted "$1" events) records written, $(counted "$1" events_read) read out," \
        "$(counted "$1" events_taken_by_guest) taken by the guest"
}

cuts_of() { # name
    local kind all=0
    for kind in run fill event answer_lost; do all=$((all + $(counted "$1" "cuts_$kind"))); done
    echo "$all cuts: $(counted "$1" cuts_run) in runs, $(counted "$1" cuts_fill) in fills, $(counted "$1" cuts_event) in event writes," \
        "$(counted "$1" cuts_answer_lost) with the answer lost"
}

watched() { # name
    echo "  $(counted "$1" hits) accesses answered by rows: $(counted "$1" stale_uses) by a stale row," \
        "$(counted "$1" hits_tables_say_otherwise) otherwise than the guest's tables say"
    echo "  rows at the end: $(counted "$1" final_rows_as_twin) as the uncut twin's, $(counted "$1" final_rows_otherwise) otherwise;" \
        "$(counted "$1" rows_missing_beside_twin) missing after uncut runs"
}
