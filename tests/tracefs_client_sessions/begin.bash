# What a session begins with: two events on two CPUs, and words that show what a client does.
cd /sys/kernel/tracing || exit
readonly TICK=events/synthetic/tick TOCK=events/synthetic/tock CPUS=2

# Processes have other numbers in each run.
mask() {
  sed -E "s/^ *[0-9]+ \[/PID [/; s/-P $$\$/-P SHELL/; s/==$$\)/==SHELL)/"
}

# run COMMAND ..: its output, and its status if that is not 0.
run() {
  printf '$ %s\n' "$*" | mask
  { "$@" < /dev/null 2>&1 && echo "status 0"; echo "status $?"; } | sed -n '/^status 0$/q; p' | mask
}

# The texts of files.
show() {
  local file
  for file in "$@"; do
    printf -- '-- %s\n' "${file#"$ROOM/"}"
    mask < "$file"
  done
}

# event CPU EVENT FIELDS: an event, by a process that is on this CPU.
event() {
  local status=9
  while [ "$status" -eq 9 ]; do
    (
      ((BASHPID % CPUS == $1)) || exit 9
      echo "$3" > "/sys/kernel/tracing/events/synthetic/$2/inject"
    )
    status=$?
  done
}

# Waits until a process waits in a read: of its system calls read is number 0.
until_it_reads() {
  local i
  for i in $(seq 100); do
    [[ $(cat "/proc/$1/syscall") != 0\ * ]] || break
    sleep 0.02
  done
}

# How trace-cmd records: by splice, but for a tracer that is mounted with --allow-other (MOUNT.md says why).
splice=
[ -z "${ALLOW-}" ] || splice=--nosplice

# until_read COUNT: until so many records were read, in all instances, and then a while. What trace-cmd's recorders have not read, or not handed on, when the
# command ends that is recorded, it may drop: `stream` always, `record` where a recorder had no time yet to begin.
until_read() {
  local i
  for i in $(seq 500); do
    (($(cat /sys/kernel/tracing/{,instances/*/}per_cpu/cpu*/stats 2> /dev/null | sed -n 's/^read events: //p' | paste -sd+) < $1)) || break
    sleep 0.02
  done
  sleep 0.5
}

echo 'tick u64 n; char who[8]' > synthetic_events
echo 'tock s32 d' >> synthetic_events
