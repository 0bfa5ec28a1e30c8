#compdef tracectl-mount
# Completes the words of tracectl-mount in zsh, from a folder of fpath. Made of the text of tracectl-mount --help by tests/cases/helping.py.
local at=${words[(i)--]}
if (( at < CURRENT )); then # a command and its words
  shift at words
  (( CURRENT -= at ))
  _normal
  return
fi
_arguments \
  '--over[Run the command with the tracer that is mounted on DIR already. There are no other options then.]:DIR:_directories' \
  '--replay=[Show what was asked and answered, in a recording, by asking the program again. Nothing is mounted]:FILE:_files' \
  '--cpus=[Number of CPUs, 1 to 8 \[default: 1; with COMMAND as many as the machine has, up to 8\]]:N: ' \
  '--pages=[Pages per ring, 2 to 1024 \[default: 16\]]:N: ' \
  '--page-bytes=[Bytes per page, 64 to 4080, a multiple of 8 \[default: 4080\]]:N: ' \
  '--allow-other[Let other users in, as far as permissions allow it]' \
  '--mode=[Permissions, in octal, 0 to 0777 \[default: 0750\]]:MODE: ' \
  '--uid=[User that the files belong to, 0 to 4294967295 \[default: who mounts\]]:N: ' \
  '--gid=[Group that the files belong to, 0 to 4294967295 \[default: that of who mounts\]]:N: ' \
  '--record=[Record all that is asked in FILE, a new one, which holds everything that is written to the tracer]:FILE:_files' \
  '--until=[With --replay, end after N requests]:N: ' \
  '--any-version[With --replay, replay what another version recorded, too]' \
  '-f[Stay in the foreground until the tracer is unmounted; an interrupt unmounts it]' \
  '(-h --help)'{-h,--help}'[Print help]' \
  '(-V --version)'{-V,--version}'[Print version, with the commit, and whether the program is proved]' \
  '1:DIR:_directories'
