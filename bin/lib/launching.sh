# What the launchers of the programs share. They read common.sh first, and set `goal`, the name of the program, and `example`, a
# command that reads standard input.
top=${here%/*}
program=$here/$goal-program
is_installed=1
if [ ! -e "$program" ]; then
  program=$top/crates/$goal/out/$goal
  is_installed=''
fi

# The crates that the program stands on, and its own.
crates_below() {
  awk -F: -v goal="$goal" '
    function add(crate, i, count, names) {
      if (!(crate in below) || crate in added) return
      added[crate]
      count = split(below[crate], names, " ")
      for (i = 1; i <= count; i++) add(names[i])
      print crate
    }
    { sub(/#.*/, "") }
    NF > 1 { split($1, left, " "); below[left[1]] = $2 }
    END { add(goal) }' "$top/crates.txt"
}

# Whether the program is newer than each source of these crates.
is_current() {
  [ -x "$program" ] && [ ! "$top/crates.txt" -nt "$program" ] || return 1
  local folders=() crate
  below=$(crates_below)
  for crate in $below; do folders+=("$top/crates/$crate"/{src,specs,proofs}); done
  [ -z "$(find "${folders[@]}" -type f -newer "$program" -print -quit 2> /dev/null)" ]
}

# Limits the memory of the commands that this shell runs next, where it is not limited to less.
set_budget() {
  local size=${CUESTORE_MEMORY:-1G} now unit=1
  case "$size" in
    unlimited) return ;;
    *[kK]) unit=1024 ;;
    *[mM]) unit=1048576 ;;
    *[gG]) unit=1073741824 ;;
  esac
  size=${size%[kKmMgG]}
  case "$size" in
    '' | *[!0-9]* | ?????????????*) say "CUESTORE_MEMORY is no size, such as 512M: $CUESTORE_MEMORY"; exit 1 ;;
  esac
  size=$((10#$size * unit / 1024))
  # With less the system cannot even load the program.
  if [ "$size" -lt 4096 ]; then say "CUESTORE_MEMORY is at least 4M: $CUESTORE_MEMORY"; exit 1; fi
  now=$(ulimit -v)
  if [ "$now" = unlimited ] || [ "$now" -gt "$size" ]; then ulimit -v "$size"; fi
}

# Names the files among these arguments that can't be read. It fails where there is none.
tell_unread() {
  local word ended='' found=1
  for word in "$@"; do
    if [ "$word" = -- ] && [ -z "$ended" ]; then ended=1; continue; fi
    if [ "$word" = - ] && [ ! -e - ]; then say "- is no file: without a FILE standard input is read, as in: $example"
    elif [ -d "$word" ]; then say "$word is a folder"
    elif [ ! -e "$word" ]; then say "$word is not there"
    elif [ ! -r "$word" ]; then say "$word can't be read"
    else continue; fi
    found=0
  done
  return "$found"
}

# Says why the file can't be written.
tell_unwritten() {
  local file=$1 folder
  folder=$(dirname -- "$file")
  if [ -d "$file" ]; then say "$file is a folder"
  elif [ ! -d "$folder" ]; then say "$file can't be written: the folder $folder is not there"
  elif [ ! -w "$folder" ]; then say "$file can't be written: no file can be made in the folder $folder"
  elif [ -e "$file.part" ]; then
    say "$file can't be written; remove what runs that were ended have left beside it: $(cd "$folder" && echo "$(basename -- "$file")".part*)"
  elif [ -L "$file" ] && [ ! -e "$file" ]; then say "$file can't be written: it is a link to what is not there"
  else say "$file can't be written: $(df -P -- "$folder" | awk 'NR == 2 { print "its disk has " $4 " KiB left" }')"; fi
}

# The sources that the build without proofs is made of.
below=''
find_sources() {
  [ -n "$below" ] || below=$(crates_below)
  local folders=("$top/crates.txt") crate
  for crate in $below; do folders+=("$top/crates/$crate/src"); done
  find "${folders[@]}" -type f "$@" 2> /dev/null
}

# A digest of these sources.
digest_of_sources() {
  find_sources -print0 | LC_ALL=C sort -z | xargs -0 cat | sha256sum | cut -c 1-32
}

# Takes the build without proofs in place of the program. It is kept by the digest of its sources, so that only the first
# command waits for it. The digest is kept with the times and sizes of the sources, so that the next commands need not read them.
take_unproved() {
  local folder digest kept=$top/out/unproved/$goal.sources listing known=''
  listing=$(find_sources -printf '%p %T@ %s\n')
  if [ -r "$kept" ]; then known=$(< "$kept"); fi
  digest=${known%%$'\n'*}
  [ "$known" = "$digest"$'\n'"$listing" ] || digest=$(digest_of_sources)
  folder=$top/out/unproved/$goal-$digest
  program=$folder/$goal
  if [ ! -x "$program" ]; then
    if ! command -v rt > /dev/null; then
      say "rt, the Rattle toolchain's command, is not on the path, and without it there is no program"
      exit 5
    fi
    mkdir -p "$top/out"
    # One build at a time: another command waits for it, and takes it.
    exec 8> "$top/out/unproved.lock"
    flock 8
    if [ ! -x "$program" ]; then
      say 'the program is built first, without proofs, in a minute or two'
      rm -rf "$top/out/unproved/$goal"-*
      mkdir -p "$folder" && "$here/build-unproved" --level 1 "$goal" "$program.part" && mv "$program.part" "$program" || exit 5
    fi
    exec 8>&-
  fi
  if [ "$known" != "$digest"$'\n'"$listing" ]; then
    { printf '%s\n%s\n' "$digest" "$listing" > "$kept.$$" && mv "$kept.$$" "$kept"; } 2> /dev/null || rm -f "$kept.$$" 2> /dev/null
  fi
  [ -n "${CUESTORE_QUIET-}" ] || say "answered by a build that is not proved; to prove and build the program: $top/bin/prove $goal"
}

# Makes sure that there is a program: the proved one, or a build without proofs.
find_own_program() {
  if [ -z "$is_installed" ] && ! is_current; then take_unproved; fi
}

# lock_site FILE: the file is read and written under the lock that carry, cuestore-add and git's driver hold too, and keeps
# its owner and group where the system lets it.
site='' owner=''
lock_site() {
  site=$(realpath -m -- "$1" 2> /dev/null) || return 0
  if [ -e "$site" ] && [ ! -f "$site" ]; then return 0; fi
  if command -v flock > /dev/null && { exec 9>> "$site.lock"; } 2> /dev/null; then flock 9; fi
  if [ -e "$site" ]; then owner=$(stat -c %u:%g -- "$site"); fi
}

# run_program ARGUMENT..: runs the program, keeps what it wrote to standard error in `fault`, and the exit status in `status`.
run_program() {
  exec 3>&1
  fault=$(set_budget; exec "$program" "$@" 2>&1 >&3 3>&- 9>&-)
  status=$?
  if [ -n "$owner" ] && [ "$(stat -c %u:%g -- "$site")" != "$owner" ]; then chown -- "$owner" "$site" 2> /dev/null; fi
}
