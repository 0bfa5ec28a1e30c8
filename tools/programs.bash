# What the scripts share, in the repository and those that are installed: what they say, how they stop, and which programs there are. Sourced, with `top`
# set to the script's folder, or the repository's, and `tool` to the name that messages begin with.

readonly NOT_BUILT=5

say() {
  echo "$tool: $*" >&2
}

stop() {
  say "$*"
  exit "$NOT_BUILT"
}

# Has a signal end the script by way of its EXIT trap.
stop_on_signals() {
  trap 'exit 129' HUP
  trap 'exit 130' INT
  trap 'exit 143' TERM
}

if [ -e "$top/tools/building.bash" ]; then . "$top/tools/building.bash"; else . "$top/tools/installed.bash"; fi
