# What examples/c/build and ./install share: the library for C, static and shared. Sourced after programs.bash.

# need_makers [MORE]: stops if there is not what makes a library: the C compiler, whose name `compiler` is, `ar`, and the kit, which has the heap.
need_makers() {
  local needed
  for needed in "$compiler" ar rt; do
    command -v "$needed" > /dev/null || stop "$needed is needed for the library and was not found${1-}"
  done
}

# Puts into `archive` the proved part of the library: crates/tracectl_c/out/libtracectl_c.a, which `rt lib` in crates/tracectl_c proves and makes. Where
# there is none or it is older than its sources, that is libtracectl_c-unproved.a beside it, which is compiled first if need be. `is_proved` says which.
choose_archive() {
  archive=$top/crates/tracectl_c/out/libtracectl_c.a
  is_proved=yes
  find_sources tracectl_c
  if ! is_current "$archive"; then
    archive=${archive%.a}-unproved.a
    is_proved=no
    make_current compile tracectl_c "$archive" || stop "so there is no library: rt lib in crates/tracectl_c proves and makes it"
    say "nothing of this library is proved; rt lib in crates/tracectl_c proves and makes it"
  fi
}

# The parts of the library that are written in C: crates/tracectl_c/PART.c.
readonly PARTS_IN_C=(tracectl tracectl_mount tracectl_serve)

# make_static FILE FOLDER: makes a static library of the archive that was chosen, of what is written in C, and of the kit's heap, which calls malloc,
# realloc and free. The folder, an empty one, takes what it is made of.
make_static() {
  local heap
  heap=$(dirname "$(rt doc)")/c/liblibc_c.a
  local part
  for part in "${PARTS_IN_C[@]}"; do
    "$compiler" -O2 -Wall -Wextra -fPIC -I "$top/crates/tracectl_c" -c -o "$2/$part.o" "$top/crates/tracectl_c/$part.c"
  done
  (cd -- "$2" && ar x "$heap")
  cp -- "$archive" "$2/library.a"
  ar q "$2/library.a" "$2"/*.o
  mv -f -- "$2/library.a" "$1"
}

# make_shared FILE FOLDER STATIC [FLAG ..]: makes a shared library of a static one. It has the functions of tracectl.h and no other names.
make_shared() {
  echo '{ global: tracectl_*; local: *; };' > "$2/names"
  "$compiler" -shared -o "$1" "${@:4}" -Wl,--version-script="$2/names" -Wl,--whole-archive "$3" -Wl,--no-whole-archive -pthread
}
