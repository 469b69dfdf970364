# Completions for bash: `source bin/completions/cuestore.bash`
_cuestore_commands='export print report state merge serve push loop'
_cuestore_tools='check why explain at diff add fmt lsp from-json to carry layers site git-setup help'

_cuestore_offer() { mapfile -t COMPREPLY < <(compgen -W "$1" -- "${COMP_WORDS[COMP_CWORD]}"); }

# _cuestore_files KINDS: the files that end so, and folders.
_cuestore_files() {
  mapfile -t COMPREPLY < <(compgen -f -X "!*.@($1)" -- "${COMP_WORDS[COMP_CWORD]}"; compgen -d -- "${COMP_WORDS[COMP_CWORD]}")
}

# _cuestore_argument COMMAND NUMBER: what an argument of a command may be, from 1.
_cuestore_argument() {
  case "$1 $2 ${COMP_WORDS[COMP_CWORD]}" in
    'help 1 '*) _cuestore_offer "$_cuestore_commands $_cuestore_tools" ;;
    'explain 1 '*) _cuestore_offer "$_cuestore_commands --json" ;;
    'to 1 '*) _cuestore_offer 'yaml toml env properties' ;;
    'site 1 '*) _cuestore_offer 'submit put try remove list show export report print state why follow backup restore status ready' ;;
    'site '*' -'*) _cuestore_offer '--policy --unless-conflict --if-match --token-file --run --timeout' ;;
    'carry 1 '*) _cuestore_offer 'push pull sync' ;;
    'carry 2 '*) _cuestore_offer 'folder: git: etcd: redis: rediss: blob:' ;;
    'carry '*' -'*) _cuestore_offer '--generation --with --fragments --every --status --most --timeout --quiet' ;;
    'carry '*) _cuestore_files 'state|layers' ;;
    'layers 1 '*) _cuestore_offer 'put remove try merge export report print list show why' ;;
    'layers '*' -'*) _cuestore_offer '--policy --limit --at' ;;
    'check 1 -'*) _cuestore_offer '--json --github' ;;
    'fmt 1 -'*) _cuestore_offer '--check' ;;
    'at 1 -'*) _cuestore_offer '--json' ;;
    'lsp 1 '*) _cuestore_offer '--log' ;;
    'from-json '*' -'*) _cuestore_offer '--decimals-as-text --scale' ;;
    'from-json '*) _cuestore_files json ;;
    'fmt '*) _cuestore_files cue ;;
    'why 1 '* | 'at 1 '* | 'serve '* | 'push 1 '* | 'git-setup '*) COMPREPLY=() ;;
    *) _cuestore_files 'cue|state|layers' ;;
  esac
}

# The options of cuestored are those that its own help names, so they are the installed program's.
_cuestored() {
  case ${COMP_WORDS[COMP_CWORD - 1]} in
    --data | --check | --salvage | --into) mapfile -t COMPREPLY < <(compgen -d -- "${COMP_WORDS[COMP_CWORD]}") ;;
    --*file) mapfile -t COMPREPLY < <(compgen -f -- "${COMP_WORDS[COMP_CWORD]}") ;;
    --*) COMPREPLY=() ;;
    *) _cuestore_offer "$("${COMP_WORDS[0]}" --help 2> /dev/null | grep -o -e '--[a-z-]*' | sort -u)" ;;
  esac
}

_cuestore() {
  local name=${COMP_WORDS[0]##*/}
  case $name in
    cuestore)
      if [ "$COMP_CWORD" -eq 1 ]; then _cuestore_offer "$_cuestore_commands $_cuestore_tools"
      else _cuestore_argument "${COMP_WORDS[1]}" $((COMP_CWORD - 1)); fi ;;
    cuelayers) _cuestore_argument layers "$COMP_CWORD" ;;
    *) _cuestore_argument "${name#cuestore-}" "$COMP_CWORD" ;;
  esac
}
shopt -s extglob
complete -o filenames -F _cuestore cuestore cuelayers cuestore-add cuestore-at cuestore-check cuestore-diff cuestore-explain cuestore-fmt \
  cuestore-lsp cuestore-site cuestore-to cuestore-why from-json
complete -o filenames -o nospace -F _cuestore carry
complete -o filenames -F _cuestored cuestored
