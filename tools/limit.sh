# What the script `goi`, and that of a release, let a run take. Read by `.` from a shell.

# Limits the memory of what runs next: to GOI_MEMORY MiB, or else to three quarters of the machine's. A limit that is set already stays.
limit() {
    [ "$(ulimit -v)" = unlimited ] && [ "${GOI_MEMORY:-}" != unlimited ] || return 0
    if [ -n "${GOI_MEMORY:-}" ]; then
        case $GOI_MEMORY in
        *[!0-9]* | 0* | ???????????*) echo "goi: GOI_MEMORY is a number of MiB, or unlimited" >&2; exit 70 ;;
        esac
        ulimit -v $((GOI_MEMORY * 1024))
    else
        # (its first line is the machine's memory, in KiB)
        kib=
        [ ! -r /proc/meminfo ] || read -r name kib unit </proc/meminfo
        [ -z "$kib" ] || ulimit -v $((kib / 4 * 3))
    fi
}

# Lets large blocks of memory come from huge pages where a word is a number of seven digits or more, which only long budgets are, so that
# the system is asked for memory in fewer pieces. What GLIBC_TUNABLES says already stays.
widen() {
    [ -z "${GLIBC_TUNABLES:-}" ] || return 0
    for word in "$@"; do
        word=${word#--budget=}
        case $word in
        *[!0-9]*) ;;
        ???????*) export GLIBC_TUNABLES=glibc.malloc.hugetlb=1 ;;
        esac
    done
}
