#!/bin/sh
# Slurm on this one machine: munged, slurmctld and slurmd with files of their own are started here and stopped again, which
# needs root. Needs Debian's packages slurm-wlm and munge. One task of the array is killed midway; the command, given again,
# runs what is left.
#
#     slurm.sh PROGRAM [COUNT]
. "$(dirname -- "$0")/common.sh"
stop() {
    scancel --user root 2> "$folder/none" || :
    for name in slurmd slurmctld munged; do
        [ ! -f "$folder/$name.pid" ] || kill "$(cat "$folder/$name.pid")" 2> "$folder/none" || :
    done
    sleep 1
    rm -rf "$folder"
}
trap stop EXIT
prepare "$@"
host=$(hostname -s)
chmod 755 "$folder"
mkdir -p "$folder/munge" "$folder/state" "$folder/spool"
chmod 700 "$folder/munge"
dd if=/dev/urandom of="$folder/munge/key" bs=1024 count=1 2> "$folder/none"
chmod 400 "$folder/munge/key"
mkdir -m 755 "$folder/socket"
munged --force --key-file "$folder/munge/key" --socket "$folder/socket/munge" --pid-file "$folder/munged.pid" \
    --log-file "$folder/munge/log" --seed-file "$folder/munge/seed"
export SLURM_CONF="$folder/slurm.conf"
cat > "$SLURM_CONF" << END
ClusterName=fleet
SlurmctldHost=$host(127.0.0.1)
SlurmUser=root
SlurmctldPort=16817
SlurmdPort=16818
AuthType=auth/munge
AuthInfo=socket=$folder/socket/munge
CredType=cred/munge
ProctrackType=proctrack/linuxproc
TaskPlugin=task/none
JobAcctGatherType=jobacct_gather/none
SelectType=select/cons_tres
SelectTypeParameters=CR_CPU
SlurmctldPidFile=$folder/slurmctld.pid
SlurmdPidFile=$folder/slurmd.pid
StateSaveLocation=$folder/state
SlurmdSpoolDir=$folder/spool
SlurmctldLogFile=$folder/slurmctld.log
SlurmdLogFile=$folder/slurmd.log
ReturnToService=2
SchedulerParameters=bf_interval=1,sched_interval=1,sched_min_interval=0
MaxArraySize=1001
NodeName=$host NodeAddr=127.0.0.1 CPUs=$(nproc) State=UNKNOWN
PartitionName=fleet Nodes=$host Default=YES MaxTime=INFINITE State=UP
END
slurmctld
slurmd
tries=0
until sinfo -h -o %T 2> "$folder/none" | grep -q idle; do
    tries=$((tries + 1))
    [ "$tries" -lt 60 ] || { say "the node didn't come up"; tail -5 "$folder/slurmctld.log" "$folder/slurmd.log"; exit 1; }
    sleep 1
done
say "$(sinfo -h -o '%P %D node, %c processors, %T')"
# the first run is cut off: its array is cancelled once some parts are done
tools run-parts "$folder/parts" --engine slurm -j 2 --program "$program" --option=--partition=fleet 2> "$folder/said" &
pid=$!
until [ "$(ls "$folder"/parts/*/result.json 2> "$folder/none" | wc -l)" -ge 3 ] || ! kill -0 "$pid" 2> "$folder/none"; do
    sleep 0.2
done
scancel --user root || :
wait "$pid" || :
say "cut off: $(tail -1 "$folder/said")"
tools run-parts "$folder/parts" --engine slurm -j 4 --program "$program" --option=--partition=fleet
hosts
compare
