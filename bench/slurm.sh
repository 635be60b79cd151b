#!/usr/bin/env bash
# Tries `tools/run --slurm` with a real Slurm of one node: `slurm.sh [GRID N SHARES]`, by default square 8 in 8 tasks.
# It sets up munged, slurmctld and slurmd on the loopback address, with all their files in a folder of its own, submits
# what the tool prints, waits, compares the catalogue with that of `classify`, and takes Slurm down, whatever comes.
# Debian's packages: munge, slurmctld, slurmd, slurm-client. HEESCH names the program, by default the one built here.
set -eu
here=$(cd "$(dirname "$0")" && pwd)
export HEESCH=${HEESCH:-$here/../crates/heesch/out/heesch}
grid=${1:-square} size=${2:-8} shares=${3:-8}
work=$(mktemp -d)
chmod 755 "$work"
export SLURM_CONF=$work/slurm.conf
daemons=()
take_down() {
  [ ${#daemons[@]} -eq 0 ] || kill "${daemons[@]}" 2> /dev/null || true
  wait
  rm -rf "$work"
}
trap take_down EXIT

mkdir "$work/munge" "$work/state" "$work/spool"
head -c 1024 /dev/urandom > "$work/munge/key"
chmod 600 "$work/munge/key"
user=$(id -un) node=$(hostname -s)
cat > "$SLURM_CONF" <<TXT
ClusterName=bench
SlurmctldHost=$node(127.0.0.1)
SlurmctldPort=16817
SlurmdPort=16818
CommunicationParameters=NoCtldInAddrAny,NoInAddrAny
SlurmUser=$user
SlurmdUser=$user
AuthType=auth/munge
AuthInfo=socket=$work/munge/socket
CredType=cred/munge
MpiDefault=none
ProctrackType=proctrack/pgid
TaskPlugin=task/none
SelectType=select/cons_tres
SelectTypeParameters=CR_CPU
ReturnToService=2
StateSaveLocation=$work/state
SlurmdSpoolDir=$work/spool
SlurmctldPidFile=$work/slurmctld.pid
SlurmdPidFile=$work/slurmd.pid
SlurmctldLogFile=$work/slurmctld.log
SlurmdLogFile=$work/slurmd.log
NodeName=$node NodeAddr=127.0.0.1 CPUs=$(nproc) State=UNKNOWN
PartitionName=all Nodes=ALL Default=YES MaxTime=INFINITE State=UP
TXT

start() { # NAME COMMAND..: a daemon in the foreground of a process of ours
  "${@:2}" > "$work/$1.out" 2>&1 &
  daemons+=($!)
}

start munged munged --foreground --force --key-file="$work/munge/key" --socket="$work/munge/socket" \
  --pid-file="$work/munge/pid" --log-file="$work/munge/log" --seed-file="$work/munge/seed"
for _ in $(seq 50); do [ ! -S "$work/munge/socket" ] || break; sleep 0.1; done
start slurmctld slurmctld -D
start slurmd slurmd -D -N "$node"

idle() { sinfo --noheader --format=%T 2> /dev/null | grep -q idle; }
for _ in $(seq 100); do ! idle || break; sleep 0.3; done
idle || { echo 'Slurm did not come up:' >&2; tail -n 5 "$work"/*.out "$work"/*.log >&2; exit 1; }
sinfo --version
sinfo --noheader --format='%n: %c processors, %T'

"$here/../tools/run" "$grid" "$size" --into "$work/run" --shares "$shares" --jobs "$(nproc)" --slurm > "$work/submit"
sed "s:$work:FOLDER:g" "$work/submit"
sh "$work/submit"
while squeue --noheader | grep -q .; do sleep 1; done
scontrol show job --oneliner | grep -o 'JobState=[A-Z]*' | sort | uniq -c | sed 's/ *\(.*\) JobState=/\1 tasks: /'
tail -q -n 1 "$work"/run/work/slurm-*.out | sed "s:$work:FOLDER:g" | grep valid
"$HEESCH" classify "$grid" "$size" > "$work/whole"
cmp "$work/whole" "$work/run/catalogue.txt"
echo 'the text of classify'
