#compdef tracectl
# Completes the words of tracectl in zsh, from a folder of fpath. Made of the text of tracectl --help by tests/cases/helping.py.
_arguments \
  '--cpus=[Number of CPUs, 1 to 8 \[default: 1\]]:N: ' \
  '--pages=[Pages per ring, 2 to 1024 \[default: 16\]]:N: ' \
  '--page-bytes=[Bytes per page, 64 to 4080, a multiple of 8 \[default: 4080\]]:N: ' \
  '--explain[Explain on standard error what is wrong with a line that is refused or has a fault]' \
  '--bars[Draw on standard error each histogram that is read]' \
  '--list[After the script, list the files, each with r, w or rw before it]' \
  '*-c[Run these lines instead of SCRIPT, one line per argument]:LINE: ' \
  '(-h --help)'{-h,--help}'[Print help]' \
  '(-V --version)'{-V,--version}'[Print version]' \
  '1:SCRIPT:_files'
