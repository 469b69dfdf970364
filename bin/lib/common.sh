# What the scripts in bash share. They set `script`, their own path with links followed, and read this file; an
# installation may have all files of bin/ and bin/lib/ in one folder.
here=${script%/*}
lib=$here/lib
[ -d "$lib" ] || lib=$here
name=${script##*/}

say() { echo "$name: $*" >&2; }

# The version of all that is here, from the one file that has it.
version() {
  local file
  for file in "$here/VERSION" "$here/../VERSION"; do
    if [ -r "$file" ]; then cat "$file"; return; fi
  done
  echo unknown
}

# answer_help WORD: answers --help by the comment at the script's head, and --version, and ends.
answer_help() {
  case "${1-}" in
    -h | --help) sed -n '2,/^[^#]/{/^#/!d; s/^# \{0,1\}//; p}' "$script" ;;
    --version) echo "$name $(version)" ;;
    *) return 0 ;;
  esac
  exit 0
}

# find_program SCRIPT [NAME]: the program of this name (cuestore) for a script that was called so: what CUESTORE or CUELAYERS
# says; what lies beside SCRIPT, beside the script itself only where none is on the path, since a checkout's launcher stops
# while a source is newer than its program.
find_program() {
  local goal=${2:-cuestore} found
  case $goal in
    cuestore) found=${CUESTORE-} ;;
    *) found=${CUELAYERS-} ;;
  esac
  if [ -n "$found" ]; then echo "$found"
  elif [ -x "$(dirname "$1")/$goal" ]; then echo "$(cd "$(dirname "$1")" && pwd)/$goal"
  elif found=$(command -v "$goal"); then echo "$found"
  else echo "$here/$goal"; fi
}
