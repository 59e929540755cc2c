# shellcheck shell=bash
# Completions for bash. packaging/completions.py writes this file from its list of options.
_pbcube() {
  local word=${COMP_WORDS[COMP_CWORD]} before=${COMP_WORDS[COMP_CWORD - 1]} options=''
  if [ "$word" = = ]; then # an option and its value may be one word, which bash takes for three
    word=''
  elif [ "$before" = = ]; then
    before=${COMP_WORDS[COMP_CWORD - 2]}
  fi
  case $before in
    --format) mapfile -t COMPREPLY < <(compgen -W 'opb cnf icnf' -- "$word"); return ;;
    --out | --exchange) mapfile -t COMPREPLY < <(compgen -d -- "$word"); return ;;
    --workers | --split | --nodes | --task | --tasks | --pieces) COMPREPLY=(); return ;;
  esac
  case ${COMP_WORDS[0]##*/} in
    pbcube) options='--format --workers --split --cubes --nodes --help --version' ;;
    pbcube_pieces) options='--format --split --cubes --out --help --version' ;;
    pbcube_task) options='--format --workers --split --cubes --nodes --task --tasks --exchange --help --version' ;;
    pbcube_join) options='--format --pieces --tasks --help --version' ;;
  esac
  case $word in
    -*) mapfile -t COMPREPLY < <(compgen -W "$options" -- "$word") ;;
    *) mapfile -t COMPREPLY < <(compgen -f -- "$word") ;;
  esac
}
complete -o filenames -F _pbcube pbcube pbcube_pieces pbcube_task pbcube_join
