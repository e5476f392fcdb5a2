#!/bin/bash
# Sets up a Slurm of one node, this machine, to try grade.sh --slurm: slurm_of_one.sh FOLDER start, and slurm_of_one.sh FOLDER stop.
# It needs root and Debian's packages (apt-get install slurm-wlm munge), and leaves the machine's own configuration alone: all
# of it stands in FOLDER. Then: SLURM_CONF=FOLDER/slurm.conf programs/course/grade.sh --slurm ..
set -eu
folder=$(mkdir -p "$1" && cd "$1" && pwd -P)
node=$(hostname -s)

start() {
    mkdir -p "$folder/state" "$folder/spool" /run/munge
    [ -s /etc/munge/munge.key ] || /usr/sbin/mungekey --create
    chown -R munge: /etc/munge /run/munge
    pgrep -x munged >/dev/null || { runuser -u munge -- /usr/sbin/munged && : >"$folder/munged"; }
    cat >"$folder/slurm.conf" <<END
ClusterName=one
SlurmctldHost=$node
SlurmUser=root
SlurmdUser=root
AuthType=auth/munge
StateSaveLocation=$folder/state
SlurmdSpoolDir=$folder/spool
SlurmctldPidFile=$folder/slurmctld.pid
SlurmdPidFile=$folder/slurmd.pid
SlurmctldLogFile=$folder/slurmctld.log
SlurmdLogFile=$folder/slurmd.log
ProctrackType=proctrack/linuxproc
TaskPlugin=task/none
JobAcctGatherType=jobacct_gather/none
SelectType=select/cons_tres
SelectTypeParameters=CR_Core
ReturnToService=2
MaxArraySize=1001
NodeName=$node CPUs=$(nproc) RealMemory=$(awk '/^MemTotal/ { print int($2 / 1024) }' /proc/meminfo) State=UNKNOWN
PartitionName=all Nodes=$node Default=YES MaxTime=INFINITE State=UP
END
    export SLURM_CONF=$folder/slurm.conf
    /usr/sbin/slurmctld
    /usr/sbin/slurmd
    for _ in $(seq 100); do
        [ "$(sinfo --noheader --format=%T 2>/dev/null)" = idle ] && return 0
        sleep 0.3
    done
    echo 'slurm_of_one.sh: the node is not idle; see the logs in the folder' >&2
    return 1
}

stop() {
    for it in slurmd slurmctld; do
        [ ! -e "$folder/$it.pid" ] || kill "$(cat "$folder/$it.pid")" || :
    done
    [ ! -e "$folder/munged" ] || { kill "$(cat /run/munge/munged.pid)" && rm "$folder/munged"; }
}

case ${2-} in
start) start ;;
stop) stop ;;
*) echo 'usage: slurm_of_one.sh FOLDER start|stop' >&2 && exit 1 ;;
esac
