# What ./tracectl, ./tracectl-mount, ./check --quick, ./install and examples/c/build share: which programs there are and whether they are current, how one
# is compiled without a proof, and how a program is proved. Sourced by programs.bash, with `top` set to the repository's folder.

{ [ -d "${TMPDIR:-/tmp}" ] && [ -w "${TMPDIR:-/tmp}" ]; } || export TMPDIR=/tmp

readonly OTHER_KIT=3 LINES_OF_LOG=20
readonly TIME_OF_PROOF="25 to 55 minutes"
readonly KIBIBYTES_NEEDED=$((4 * 1024 * 1024)) # free memory that compiling and proving take at most
readonly shown=./$tool                         # how help shows the starter

# --- Sources ---

declare -A uses=() # for each crate in crates.txt the libraries that it names
crates=()          # a crate and those that it is built from, each after its libraries
sources=()         # their sources below `top`, code and what is promised of it; a folder is newer once a file in it is added or removed

add_crate() {
  local library part
  [[ " ${crates[*]-} " != *" $1 "* ]] || return 0
  for library in ${uses[$1]}; do
    [ -z "${uses[$library]+listed}" ] || add_crate "$library" # any other library is the kit's
  done
  crates+=("$1")
  for part in "crates/$1"/{src,specs}; do
    [ ! -d "$top/$part" ] || sources+=("$part")
  done
}

# Finds these crates and those that they are built from, and the sources.
find_sources() {
  local crate libraries
  while IFS=: read -r crate libraries; do
    [[ -z $crate || $crate == *#* ]] || uses[${crate%% *}]=${libraries%%#*}
  done < "$top/crates.txt"
  crates=()
  sources=(crates.txt)
  for crate in "$@"; do add_crate "$crate"; done
}

# The sources for which a test of find holds, each with its time.
dated_sources() {
  env -C "$top" find "${sources[@]}" "$@" -printf '%p %T@\n'
}

# Whether a file is there and no source is newer but those that were dated in the future when it was made, and are as they were. Those are listed in
# FILE-ahead.
is_current() {
  local newer
  [ -e "$1" ] || return 1
  newer=$(dated_sources -newer "$1")
  [ -z "$newer" ] || { [ -f "$1-ahead" ] && ! grep -Fvxq -f "$1-ahead" <<< "$newer"; }
}

# --- Making ---

# The memory that is free, in KiB: of the machine, or of the control group if that has less. Nothing if neither tells.
free_memory() {
  local free most used
  free=$(awk '/^MemAvailable:/ { print $2 }' /proc/meminfo 2> /dev/null)
  { most=$(< /sys/fs/cgroup/memory.max) used=$(< /sys/fs/cgroup/memory.current); } 2> /dev/null
  if [[ $most =~ ^[0-9]+$ && $used =~ ^[0-9]+$ ]] && (((most - used) / 1024 < ${free:-0})); then free=$(((most - used) / 1024)); fi
  echo "$free"
}

tell_of_memory() {
  local free
  free=$(free_memory) || true
  if [ "${free:-$KIBIBYTES_NEEDED}" -lt "$KIBIBYTES_NEEDED" ]; then
    say "$((free / 1024)) MiB of memory are free, which may be too little: up to $((KIBIBYTES_NEEDED / 1024)) are needed"
  fi
}

# Waits until nobody else makes this file. Without flock both make it.
take_turn() {
  mkdir -p "${1%/*}" 2> /dev/null && { : > "$1.lock"; } 2> /dev/null || stop "${1%/*} cannot be written"
  exec {turn}> "$1.lock"
  if command -v flock > /dev/null && ! flock -n "$turn"; then
    say "another $tool makes ${1#"$top/"}; this one goes on once that has ended"
    flock "$turn"
  fi
}

# run_logged FILE FUNCTION COMMAND ..: runs a command with its output in a file, and hands each line on. If this script ends before, so does the command.
# `status` is its exit status.
run_logged() {
  local line said
  : > "$1"
  exec {said}< <(exec "${@:3}" 2>&1 < /dev/null)
  process=$!
  trap 'kill "$process" 2> /dev/null; wait "$process" || :; rm -rf -- "${room:-}"' EXIT
  while IFS= read -r line <&"$said"; do
    printf '%s\n' "$line" >> "$1"
    "$2" "$line"
  done
  exec {said}<&-
  status=0
  wait "$process" || status=$?
  trap - EXIT
}

# make_current MAKER CRATE FILE: has `compile` or `prove` make FILE.new of a crate, and puts it in the place of FILE, unless that is current. Fails if
# the maker's `status` isn't 0.
make_current() {
  local started future
  find_sources "$2"
  ! is_current "$3" || return 0
  command -v rt > /dev/null || stop "rt, the command of the Rattle kit, is needed and was not found"
  stop_on_signals
  take_turn "$3"
  if ! is_current "$3"; then
    tell_of_memory
    started=$(date +%s.%N)
    future=$(dated_sources -newermt "@$started")
    "$1" "$2" "$3"
    [ "$status" -eq 0 ] || return "$status"
    touch -d "@$started" "$3.new" # so that a source that is written meanwhile is newer
    printf '%s' "${future:+$future$'\n'}" > "$3-ahead"
    mv -f -- "$3.new" "$3"
  fi
  exec {turn}>&-
  trap - HUP INT TERM
}

show_line() {
  printf '%s\n' "$1" >&2
}

# Without proving anything. Its `status` is OTHER_KIT if this kit works in other ways than tools/unproved.py knows.
compile() {
  command -v python3 > /dev/null || stop "python3 is needed and was not found"
  say "compiling ${2#"$top/"}, unproved, which takes about a minute"
  run_logged "$2.log" show_line "$top/tools/unproved.py" "$1" "$2.new"
  [ "$status" -eq 0 ] || [ "$status" -eq "$OTHER_KIT" ] || stop "${2#"$top/"} could not be compiled; ${2#"$top/"}.log says more"
}

# --- Proving ---

# Copies the crates that were found, without their planted bugs, as a repository: `copy_crates TO [PART]`, with another part of each.
copy_crates() {
  local crate part
  mkdir -p "$1/.git" # rt asks for the top of a repository
  for crate in "${crates[@]}"; do
    mkdir -p "$1/crates/$crate"
    for part in src specs proofs stdin stdout args status data ${2-}; do
      part=$top/crates/$crate/$part
      [ ! -e "$part" ] || cp -R -- "$part" "$1/crates/$crate/"
    done
    grep -E "^$crate[ :]" "$top/crates.txt" >> "$1/crates.txt"
  done
  cp -- "$top/HANDLES" "$1/"
}

# Tells of each crate that is proved, in a line of rt.
tell_of_crate() {
  [[ $1 =~ ^rt:\ ([a-z_]+)\ (proved|is\ kept) ]] || return 0
  say "${BASH_REMATCH[1]} is proved, $((count += 1)) of ${#crates[@]}, $SECONDS seconds"
}

# Proves a program and the crates that it is built from, and takes it. Where rt keeps what it proves, ./check need not do it again.
prove() {
  local count=0
  say "proving ${#crates[@]} crates, which takes $TIME_OF_PROOF if nothing is kept of earlier runs"
  room=$(mktemp -d "${TMPDIR:-/tmp}/tracectl-proving.XXXXXX") || exit "$NOT_BUILT"
  copy_crates "$room"
  run_logged "$2.log" tell_of_crate env -C "$room" rt ci
  [ "$status" -ne 0 ] || cp -- "$room/crates/$1/out/$1" "$2.new" || status=$?
  rm -rf -- "$room"
  if [ "$status" -ne 0 ]; then
    tail -n "$LINES_OF_LOG" "$2.log" >&2
    stop "$1 was not proved; ${2#"$top/"}.log says more"
  fi
}

# --- Choosing ---

# Puts into `program` the proved program of a crate, if it is current, or else an unproved one, which is compiled if need be; into `is_proved` which of
# them it is.
choose_program() {
  local ahead
  program=$top/crates/$1/out/$1
  is_proved=yes
  find_sources "$1"
  if ! is_current "$program"; then
    if make_current compile "$1" "$program-unproved"; then
      program+=-unproved
      is_proved=no
    else
      say "so the program is proved, which needs no such knowledge"
      make_current prove "$1" "$program"
    fi
  fi
  [ -s "$program-ahead" ] || return 0
  ahead=$(dated_sources -newermt now)
  [ -z "$ahead" ] || say "${ahead%% *} is dated in the future; ${program#"$top/"} was made from it as it is"
}

# Says that nothing of the program is proved, and how that is changed.
tell_unproved() {
  say "nothing of this program is proved; ./check proves and tests it all${1-}"
}

# version_line NAME KIND: the version of something by this name as the sources have it, of this kind, and the commit, if this is a checkout.
version_line() {
  local version commit=
  version=$(sed -n 's/^const VERSION: &str = "\(.*\)";$/\1/p' "$top/crates/program_arguments/src/program.rt")
  [ ! -e "$top/.git" ] || commit=$(git -C "$top" describe --always --dirty --abbrev=12 --exclude '*' 2> /dev/null) || commit=
  echo "$1 $version, $2${commit:+, commit $commit}"
}

# Prints the version of a crate's program, and whether the one that would be run is proved.
print_version() {
  local kind=unproved
  find_sources "$1"
  ! is_current "$top/crates/$1/out/$1" || kind=proved
  version_line "$tool" "$kind"
}
