# How many checks of the prover run at once: ./test and contrib/prove.sh give `lanes` to `rt` as RT_JOBS. With that number
# given, each check has one job. A second one reads the libraries once more: with four, `wq_gen` takes 65 seconds of
# processor time in place of 38.

# The rule: one check for each processor and for each 3 GB of free memory, at most four and at least one. It gets the
# number of processors, and the free memory in kibibytes.
lanes_for() {
    found=4
    for most in "$1" $(($2 * 1024 / 3000000000)); do
        if [ "$most" -lt "$found" ]; then found=$most; fi
    done
    if [ "$found" -lt 1 ]; then found=1; fi
    echo "$found"
}

# The processors that this process may use.
processors() {
    found=$(nproc)
    if read -r quota period 2> /dev/null < /sys/fs/cgroup/cpu.max && [ "$quota" != max ]; then
        quota=$((quota / period))
        if [ "$quota" -lt "$found" ]; then found=$quota; fi
    fi
    echo "$found"
}

# The memory that this process may take, in kibibytes. If its control group has a limit, that includes what it holds.
free_memory() {
    free=$(awk '$1 == "MemAvailable:" { print $2 }' /proc/meminfo)
    if read -r limit 2> /dev/null < /sys/fs/cgroup/memory.max && [ "$limit" != max ]; then
        held=$(awk '$1 == "anon" { print $2 }' /sys/fs/cgroup/memory.stat)
        left=$(((limit - held) / 1024))
        if [ "$left" -lt "$free" ]; then free=$left; fi
    fi
    echo "$free"
}

lanes() {
    lanes_for "$(processors)" "$(free_memory)"
}
