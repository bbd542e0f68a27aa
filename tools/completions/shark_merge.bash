# Completion of shark_merge for bash. Written by tools/make_completions.
_shark_merge() {
  local word=${COMP_WORDS[COMP_CWORD]}
  case ${COMP_WORDS[COMP_CWORD - 1]},$word in
    -F,*) mapfile -t COMPREPLY < <(compgen -W "pcap pcapng" -- "$word") ;;
    *,-*) mapfile -t COMPREPLY < <(compgen -W "-F --help --version" -- "$word") ;;
    *) mapfile -t COMPREPLY < <(compgen -f -- "$word") && compopt -o filenames ;;
  esac
}
complete -F _shark_merge shark_merge
