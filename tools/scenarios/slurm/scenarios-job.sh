#!/bin/sh
# properties = {properties}
# A job of the cluster: the engine once more, for some scenarios. Snakemake puts the call behind the last line but one.
#
# A step that fails at its last try ends its own scenario alone, and the engine goes on with the others. A job that is tried again, after a
# fault or since its node was lost, does what lacks, and nothing that stands there already. A node that is lost to Slurm may be at work
# yet: then the next try waits until that has ended, and both never write at once.
job=$(sed -n '/^: the call$/{{n;p;}}' "$0" | sed 's/ -m snakemake / -m snakemake --keep-going /')
case $job in
*' --attempt 1 '*) ;;
*) job=$(printf '%s\n' "$job" | sed 's/ --force / /') ;;
esac
group=$(printf '%s\n' "$job" | sed -n "s/.* --local-groupid '\{{0,1\}}\([A-Za-z0-9-]*\)'\{{0,1\}} .*/\1/p")
if [ -n "$group" ] && mkdir -p .snakemake/at-work && : >> ".snakemake/at-work/$group"; then
    exec 9>> ".snakemake/at-work/$group"
    flock 9
fi
eval "$job"
exit
: the call
{exec_job}
