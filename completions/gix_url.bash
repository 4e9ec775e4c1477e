# Completions of bash for `explain`: `source completions/gix_url.bash`

_gix_url_words() {
  COMPREPLY=($(compgen -W "$1" -- "$2"))
}

# After -- there are texts alone, of which none is completed.
_gix_url_is_after_options() {
  local it
  for it in "${COMP_WORDS[@]:1:COMP_CWORD-1}"; do
    [ "$it" = -- ] && return 0
  done
  return 1
}

_gix_url_explain() {
  local now=${COMP_WORDS[COMP_CWORD]} before=${COMP_WORDS[COMP_CWORD - 1]} first=${COMP_WORDS[COMP_CWORD - 2]-}
  COMPREPLY=()
  _gix_url_is_after_options && return
  # `--only=host` is three words where = breaks words.
  [ "$now" = = ] && now=""
  [ "$before" = = ] && before=$first
  case $before in
    --only) _gix_url_words "scheme user host port path query fragment text" "$now" ;;
    --color) _gix_url_words "auto always never" "$now" ;;
    --fail-on) _gix_url_words "danger unsettled refused git-differs policy any" "$now" ;;
    -f | --file | --config | --gitmodules) mapfile -t COMPREPLY < <(compgen -f -- "$now") ;;
    *) case $now in
      -*) _gix_url_words "--json --sarif --html --only --ssh --summary --quiet --fail-on --color --file --config --remotes --gitmodules --parent --null --crlf --help --version --" "$now" ;;
    esac ;;
  esac
}

complete -o filenames -F _gix_url_explain explain ./explain
