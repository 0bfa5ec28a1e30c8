# What a starter knows of its program where ./install has put both, in place of tools/building.bash. `versions` has for each tool the line that its
# --version prints, as "tracectl 0.4.2, proved, commit 5a43174a1b2c".

readonly shown=$tool # how help shows the starter

# Puts into `program` that of a crate, and into `is_proved` whether it was proved.
choose_program() {
  program=$top/programs/$1 is_proved=no
  [[ $(print_version) != *", proved"* ]] || is_proved=yes
}

tell_unproved() {
  say "nothing of this program is proved; it was installed so"
}

make_current() {
  stop "what is installed stays as it is; in the repository ./tracectl --prove proves the program, and ./install then installs that"
}

print_version() {
  grep "^$tool " "$top/versions"
}
