# shellcheck shell=bash
# The programs that run.sh, check.sh and source.sh time, for them to read. `make_source CASE` writes program.masm, inputs and, where the
# program has a kernel, kernel.masm into the folder where it is called, and sets `kernel` to that file's name or to nothing.
# TURNS is how often the source's outer body is repeated, and STACK what the stack begins with.

# One span. A turn of 126 cycles or so leaves one cell more than it found, and the end drops half of them, or DROPPED. It has
# groups and immediates in all places, shifts to both sides above the sixteenth cell and below it, and comparisons of what is
# the same and what differs.
span_source() {
    local turns=${TURNS:-4140}
    cat <<END
begin
    repeat.$turns
        push.3.5.0
        repeat.3
            push.1000003 add dup mul swap neg add.18446744069414584320 push.9 mul
        end
        repeat.6
            dup dup push.7 swap eq drop
        end
        repeat.6
            repeat.2
                neg swap
            end
            drop
        end
        repeat.2
            dup mul add.11 neg swap neq.4 swap mul
        end
    end
    repeat.${DROPPED:-$((turns / 2))}
        drop
    end
end
END
}

# A loop with a body of one span, of 18 cycles a turn.
loop_source() {
    cat <<END
begin
    push.7.${TURNS:-24000}.1
    while.true
        swap add.3 dup mul neg neg swap sub.1 dup neq.0
    end
end
END
}

# A loop whose turns branch and call, of some 45 cycles a turn, with nine blocks each.
flow_source() {
    cat <<END
proc.step
    dup mul add.3
end
begin
    push.7.${TURNS:-9700}.1
    while.true
        dup is_odd
        if.true
            swap call.step neg swap
        else
            swap add.5 call.step swap
        end
        sub.1 dup neq.0
    end
end
END
}

# A loop of 20,000 calls, of 19 cycles a turn, on a stack of some DEPTH cells, or of some 26.
calls_source() {
    cat <<END
proc.step
    swap neg swap
end
begin
    repeat.10
        repeat.$(((${DEPTH:-26} - 16) / 10))
            dup
        end
    end
    push.${TURNS:-20000}.1
    while.true
        call.step sub.1 dup neq.0
    end
end
END
}

# A loop that uses all tables: numbers of 32 bits, locals, memory and calls, and in each eighth turn a permutation and a
# syscall.
all_source() {
    cat <<END
proc.mix.2
    dup loc_store.0 dup.1 loc_store.1
    loc_load.0 loc_load.1 u32checked_and
    loc_load.0 loc_load.1 u32checked_xor
    u32wrapping_mul
    loc_load.0 u32wrapping_add
    movdn.2 drop
end
begin
    adv_push.4
    push.7.${TURNS:-690}.1
    while.true
        dup movup.2 u32wrapping_add.2654435769
        dup movup.2 call.mix drop
        u32wrapping_add swap
        dup.1 dup.1 mem_store
        dup add.1 mem_load movup.2 u32checked_xor swap
        dup push.7 u32checked_and eq.0
        if.true
            padw mem_loadw.1 padw mem_loadw.2 padw hperm
            mem_storew.1 dropw mem_storew.2 dropw dropw
            syscall.count
        else
            dup u32split drop push.3 u32checked_div drop
        end
        sub.1 dup neq.0
    end
end
END
}

# A loop of dynamic blocks, of some 24 cycles a turn, which run sixteen procedures in turn: memory holds their digests, and each leaves
# the address of another one's.
dispatch_source() {
    local k work
    for ((k = 0; k < 16; k++)); do
        work=neg
        [ $((k % 2)) = 0 ] || work="dup mul"
        cat <<END
proc.p$k
    movup.5 $work movdn.5 movup.4 sub.1 dup movdn.5 neq.0 push.$(((k + 5) % 16)) swap
end
END
    done
    echo begin
    for ((k = 0; k < 16; k++)); do
        echo "    procref.p$k mem_storew.$k dropw"
    done
    cat <<END
    push.7.${TURNS:-20000} padw push.0.1
    while.true
        mem_loadw dynexec
    end
    drop dropw drop
end
END
}

# One span of ten permutations a turn, each of the one before.
permutations_source() {
    cat <<END
begin
    repeat.${TURNS:-2000}
        repeat.10
            hperm
        end
    end
end
END
}

# Some forty cycles through a tree of 524,288 operations and twice as many blocks: splits of which nearly none runs, and
# all of one height are alike. The stack decides at each.
splits_source() {
    local k
    echo "proc.t0 neg end"
    for ((k = 1; k <= 19; k++)); do
        echo "proc.t$k if.true exec.t$((k - 1)) else exec.t$((k - 1)) end end"
    done
    echo "begin exec.t19 end"
}

# The same of 524,280 operations, in 30,840 spans of which no two are alike.
spans_source() {
    awk '
        function tree(low, high, middle) {
            if (high - low == 1) {
                printf "add.%d exec.w", high
                return
            }
            middle = int((low + high) / 2)
            printf "if.true "
            tree(low, middle)
            printf " else "
            tree(middle, high)
            printf " end"
        }
        BEGIN {
            print "proc.w repeat.15 neg end end"
            printf "begin "
            tree(0, 30840)
            print " end"
        }'
}

all_kernel() {
    cat <<END
export.count.1
    dup loc_store.0
    mem_load.1000000 add.1 mem_store.1000000
    loc_load.0 drop
end
END
}

# shellcheck disable=SC2034 # the one who reads this file uses `kernel`
make_source() {
    "$1_source" >program.masm
    echo "{\"advice\":[11,12,13,14],\"stack\":[${STACK-5,8}]}" >inputs
    kernel=
    if [ "$1" = all ]; then
        all_kernel >kernel.masm
        kernel=kernel.masm
    fi
}
