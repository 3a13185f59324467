# How `coverage` runs the program. Behind a refusal it says on standard error what that means; under --must-return it
# looks at how the tasks ended; on a terminal it says that a long run is under way. Only behind a refusal it starts Python.
# shellcheck shell=bash disable=SC2016,SC2094,SC2154

# How the command is called, where it is told.
: "${me:=./coverage}"

# Of --must-return, where a task ended otherwise than RETURNED, and of --seconds, where the command had not ended.
not_returned=80 not_ended=83

# How the program's refusals begin that tell more than their status does.
refusals='BAD (JOB|SCHEDULE|MARKS|EVIDENCE|LISTING)|MISMATCH|TOO LARGE|OWN SVC|OTHER TABLE|NO SESSION|CONTROLLED'
refusals="$refusals|REFUTED ROW"

# Whether the words are those of a command of the program, as far as is seen without it: 0, or 1 where the command has
# other words, and 2 where there is no such command.
fits() {
  local name='^[A-Z@#$][A-Z@#$0-9]{0,7}$'
  case ${1-} in
  run | exits | early | count | table | ends | replay | combine) [ $# = 1 ] ;;
  marks | show | prove | verify) [[ $# = 2 && $2 =~ $name ]] ;;
  services) [ $# -gt 1 ] && [[ $2 =~ ^(run|count|table|ends|marks|show)$ ]] && fits "${@:2}" ;;
  trial) [[ $# = 3 && $2 =~ ^(0|[1-9][0-9]{0,9})$ && $3 =~ ^[1-9][0-9]?$ && $2 -le 4294967295 && $3 -le 64 ]] ;;
  *) return 2 ;;
  esac
}

# Takes the script's own options out of the words behind a command; sets `words`, `must_return` and `seconds`.
take_words() {
  words=() must_return='' seconds=''
  while [ $# != 0 ]; do
    case $1 in
    --must-return) must_return=yes ;;
    --seconds=*) take_seconds "${1#*=}" ;;
    --seconds)
      shift
      take_seconds "${1-}"
      ;;
    *) words+=("$1") ;;
    esac
    shift
  done
  case ${seconds:+${words[0]-}}-$seconds in
  -[1-9]* | module-* | job-* | union-* | page-* | summary-* | diff-* | lcov-* | cobertura-* | try-* | install-*)
    say '--seconds stands behind a command of the program alone'
    exit 1
    ;;
  esac
  if [ -n "$must_return" ] && [[ ! ${words[*]} =~ ^(run|exits|early|services run)$ ]]; then
    say '--must-return stands behind run, exits, early or services run alone, which tell how the tasks of a job ended'
    exit 1
  fi
}

take_seconds() {
  if [ -n "$seconds" ]; then
    say '--seconds stands twice'
  elif [[ ! $1 =~ ^[1-9][0-9]{0,8}$ ]]; then
    say "--seconds takes a number from 1 to 999999999, in digits, and not '$1'"
  else
    seconds=$1
    return
  fi
  exit 1
}

say() {
  echo "coverage: $*" >&2
}

# Refuses words that are no command's, where there is no program that could.
refuse_words() {
  local from='' line='' status=1
  fits "${words[@]}"
  if [ $? = 1 ]; then
    say "these are not the words of ${words[0]}: $me alone says which they are"
  else
    say "${words[0]} is no command: $me alone says which there are"
  fi
  hint
  exit "$status"
}

# Sets `at` to where the regular file that is open at a number stands; to nothing of whatever else is open there.
position() {
  local info word value
  at=''
  [ -f "/dev/fd/$1" ] && { exec {info}<"/proc/self/fdinfo/$1"; } 2>/dev/null || return 0
  # Read as number 0 the file would tell of itself.
  while read -r -u "$info" word value; do
    if [ "$word" = pos: ]; then at=$value; fi
  done
  exec {info}<&-
}

# Opens a file without a name for the output, which is written as a whole once the program has ended: the one that this shell
# takes for a text that is too long for a pipe.
hold() {
  local long
  [ -d "${TMPDIR:-/tmp}" ] && [ -w "${TMPDIR:-/tmp}" ] || return
  printf -v long '%66000s' ''
  { exec {get}<<<"$long" && [ -f "/dev/fd/$get" ] && exec {put}>"/dev/fd/$get" {look}<"/dev/fd/$get"; } 2>/dev/null
}

# What bounds a command: its tasks and their budgets. The job is standard input, from where it stood on.
bound() {
  if [ "$1" = services ]; then shift; fi
  if [ "$1" = trial ]; then
    echo "; ${3-} tasks, each of fewer than 250000 instructions"
  elif [ -n "$from" ] && [[ ! $1 =~ ^(table|combine|show)$ ]]; then
    tail -c "+$((from + 1))" /dev/fd/0 2>/dev/null | LC_ALL=C awk '
      skip > 0 { skip--; next }
      $1 == "LISTING" { skip = $2 + 0 }
      $1 == "TASK" { tasks++; if ($5 + 0 > most) most = $5 + 0 }
      $1 == "ENDJOB" { exit }
      END {
        if (tasks) printf "; %d task%s of at most %.0f instructions", tasks, (tasks > 1 ? "s, each" : ""), most
      }' 2>/dev/null
  fi
}

# Whether the terminal is another job's, as that of a shell which has this one in the background.
in_background() {
  local fields
  { read -r fields <"/proc/$$/stat"; } 2>/dev/null || return 1
  # Behind the name in parentheses: state, parent, group, session, terminal, and the group that has the terminal.
  read -ra fields <<<"${fields##*) }"
  ((fields[5] > 0 && fields[5] != fields[2]))
}

# From two seconds on says each second on the terminal that the command runs, until the pipe at a number ends. The line is
# taken away then.
watch() {
  local ended=$1 since began=$SECONDS line spent bounds name
  shift
  name=$1
  if [ "$1" = services ]; then name="$1 $2"; fi
  printf -v since '%(%H:%M:%S)T' -1
  trap '' HUP INT QUIT TERM USR1 USR2
  goes_on "$ended" 2 || return
  bounds=$(bound "$@")
  while
    spent=$((SECONDS - began))
    printf -v line '%s, %d:%02d since %s%s' "$name" $((spent / 60)) $((spent % 60)) "$since" "$bounds"
    # The terminal cuts the line at its edge, so that it stays one.
    in_background || printf '\r\e[K\e[?7lcoverage: %s\e[?7h' "$line" >&2
    goes_on "$ended" 1
  do :; done
  in_background || printf '\r\e[K' >&2
}

# Whether a pipe that nobody writes is still open for writing after some seconds.
goes_on() {
  read -rt "$2" -u "$1"
  # It is 1 at the pipe's end.
  (($? > 128))
}

# Makes a pipe, and sets `source` and `sink` to the numbers of its ends.
pipe() {
  local both
  exec {both}<> <(:)
  exec {source}<"/dev/fd/$both" {sink}>"/dev/fd/$both"
  exec {both}>&-
}

# Runs what a function does, which ends by exec, as a child, for at most so many seconds if the first word has any; sets `status`
# as a shell tells it, and `is_late` if they were over. The child gets each signal that this shell gets, or that which
# `instead` names; `was` is the last.
run_child() {
  local child='' ended name source sink started watcher=''
  was='' is_late=''
  for name in HUP INT QUIT TERM USR1 USR2; do
    # shellcheck disable=SC2064
    trap "was=$name; [ -z \"\$child\" ] || kill -${instead:-$name} \"\$child\" 2>/dev/null" "$name"
  done
  # The child has the pipe open for writing, which so ends with it.
  pipe
  ended=$source
  # A job in the background ignores interrupts until it takes them back, and loses other signals: the line says when.
  (
    trap - HUP INT QUIT TERM USR1 USR2
    echo >&"$sink"
    "$2"
  ) <&0 &
  started=$!
  exec {sink}>&-
  read -r <&"$ended"
  child=$started
  [ -z "$was" ] || kill "-${instead:-$was}" "$child" 2>/dev/null
  if [ -n "$watched" ]; then
    pipe
    watch "$source" "${words[@]}" <&0 {sink}>&- >/dev/null &
    watcher=$!
  fi
  # A signal doesn't end this read. It would end `wait`, and where the program ends at once its status would be lost.
  read -r ${1:+-t "$1"} <&"$ended"
  if (($? > 128)); then
    is_late=yes
    kill -KILL "$child" 2>/dev/null
  fi
  trap '' HUP INT QUIT TERM USR1 USR2
  wait "$child" 2>/dev/null
  status=$?
  exec {ended}<&-
  if [ -n "$watcher" ]; then
    exec {sink}>&-
    wait "$watcher" 2>/dev/null
  fi
  trap - HUP INT TERM USR1 USR2
  trap 'end_by 3' QUIT
}

run_program() {
  exec "$program" "${words[@]}" >&"$put"
}

# Sets `line` to the program's refusal, where standard output can be read again; else to nothing.
read_line() {
  local file
  line=''
  if [ -n "$held" ]; then
    IFS= read -r line <&"$look"
  else
    position 1
    [ -n "$at" ] && { exec {file}</proc/self/fd/1; } 2>/dev/null || return 0
    line=$(head -c "$at" <&"$file" | tail -c 300 | tail -n 1 | tr -d '\0')
    exec {file}<&-
  fi
  [[ $line =~ ^($refusals)" " ]] || line=''
}

# What a refusal means, by its status, and by its line where that is known.
meaning() {
  case $status:$line in
  1:*) echo "the words are none of its commands: $me alone says which there are" ;;
  2:*) echo 'no job goes on with that line, or the input ends before its job does: docs/JOB.md' ;;
  3:*) echo 'the module has other bytes there than its listing says: docs/TROUBLE.md' ;;
  4:'TOO LARGE PLACES'*) echo 'the job has too many instruction lines: docs/JOB.md, "Limits"' ;;
  4:*) echo 'the input passes a limit: docs/JOB.md, "Limits"' ;;
  5:*)
    if [ -d /dev/fd/0 ]; then echo 'standard input is a folder'; else echo 'standard input could not be read: it is closed, or its disk fails: docs/REPORT.md'; fi
    ;;
  6:*) echo 'standard output could not be written whole: its disk is full, or its reader has ended: docs/REPORT.md' ;;
  7:*) echo 'there was too little memory for it: docs/TROUBLE.md' ;;
  8:*) echo "that instruction is SVC 255, the breakpoint's own, which no listing may have: docs/MACHINE.md" ;;
  9:*) echo 'that line is no item of a schedule, or none that is possible there: docs/JOB.md, "Schedules"' ;;
  10:*) echo 'the bytes there are no marks file, or one that is cut short or damaged: docs/MARKS.md' ;;
  11:*) echo 'the marks are of other modules, or of another assembly of them: docs/MARKS.md' ;;
  12:*HEADING) echo "that module's listing has no heading line: docs/LISTING.md" ;;
  12:*OBJECT) echo "that line's object code is not that of one instruction: docs/LISTING.md" ;;
  12:*ODD) echo "that line's location is odd: docs/LISTING.md" ;;
  12:*OUTSIDE) echo "that line's instruction ends past the module, as in the listing of a larger one: docs/LISTING.md" ;;
  12:*OVERLAP) echo 'that line stands where an earlier one does, as in a second section from 000000 on: docs/LISTING.md' ;;
  12:*) echo 'that line of a listing cannot be used: docs/LISTING.md, "Faults"' ;;
  13:*) echo 'no session of the job has that name: docs/JOB.md' ;;
  14:*) echo 'a task opens and closes that session, so what it shows hangs on how tasks race: docs/JOB.md' ;;
  15:*) echo 'the bytes behind the marks are no evidence of this job and these marks, or are cut short or damaged: docs/EVIDENCE.md' ;;
  16:*) echo "marks, evidence and what the job's tasks show do not agree at that row and fact: docs/EVIDENCE.md" ;;
  esac
}

# Says what the program's refusal means: behind its line, unless the user sees that.
explain() {
  local front said
  said=$(meaning)
  [ -n "$said" ] || return 0
  read_line
  said=$(meaning)
  front="status $status: "
  if [ -n "$line" ]; then front="$line: "; fi
  if [[ $status = [16] || -t 1 && -t 2 ]]; then front=''; fi
  say "$front$said"
  hint
}

# Says further what it probably is, by the words, the line and the input, which only a file tells a second time. What takes longer
# than a second of a processor, or three by the clock, is left unsaid.
hint() {
  local input=0 instead=KILL is_late status=$status was watched=''
  case $status:$from$line in
  1:* | [2-49]:?* | 1[0-356]:?*) ;;
  *) return 0 ;;
  esac
  if [ -z "$from" ]; then exec {input}</dev/null; fi
  command -v python3 >/dev/null || return 0
  run_child 3 say_why <&"$input"
  [ -z "$was" ] || end_by "$(kill -l "$was")"
}

say_why() {
  # This shell ends it, so that an interrupt makes no traceback; what ends this shell by KILL leaves it no longer than a second.
  trap '' HUP INT QUIT TERM
  ulimit -c 0 -t 1
  exec python3 -I -S -B "$top/scripts" why "$me" "$status" "$from" "$line" "${words[@]}" >&2
}

# Says which tasks of the report have not returned, and answers whether there are any.
tells_others() {
  local others count
  others=$(grep -a '^TASK ' <&"$look" | grep -av '^TASK [^ ]* RETURNED COUNT ' | sed 's/^TASK \(.*\) COUNT .*/\1/')
  [ -n "$others" ] || return 1
  count=$(wc -l <<<"$others")
  if ((count > 5)); then others=$(head -n 5 <<<"$others")$'\n..'; fi
  say "not returned: ${others//$'\n'/, }: docs/TROUBLE.md says what each ending is"
}

# Ends as the program has ended, by the same signal too.
end_as_child() {
  if ((status > 128 && status < 193)); then end_by "$((status - 128))"; fi
  exit "$status"
}

# Whether a number is open.
is_open() {
  [ -e "/dev/fd/$1" ]
}

# Runs the program on the words of a command, and ends with its status.
call_program() {
  local at from get held='' instead='' is_late line='' look program=$1 put=1 status was watched=''
  # The program, which can't do so itself, then gets an error where a file may not grow, and tells of it.
  trap '' XFSZ
  if [ -z "$must_return$seconds" ] && ! is_open 2; then
    exec "$program" "${words[@]}"
  fi
  # What can't be read, or not written, stands for what is closed, so that no pipe of this shell gets its number.
  is_open 0 || exec 0>/dev/null
  is_open 1 || exec 1</dev/null
  if [[ -t 0 && ${words[0]} != trial ]] && fits "${words[@]}"; then
    say "${words[0]} reads standard input, which is the terminal here: $me alone says what each command reads"
  fi
  position 0
  from=$at
  if [[ -n $must_return$seconds || -t 1 && -t 2 && ! -t 0 ]]; then
    if hold; then
      held=yes
    elif [ -n "$must_return$seconds" ]; then
      say "no file for the output can be made in ${TMPDIR:-/tmp}, where --must-return and --seconds keep it meanwhile"
      exit 6
    fi
  fi
  if [[ -t 2 && ! -t 0 && ( -n $held || ! -t 1 ) ]]; then watched=yes; fi
  run_child "$seconds" run_program
  if [ -n "$is_late" ]; then
    say "${words[*]} had not ended after $seconds s, and was ended by --seconds: nothing is written"
    exit "$not_ended"
  fi
  if [ -n "$held" ] && ((status < 128)) && ! cat <&"$get" 2>/dev/null; then status=6; fi
  if ((status)); then
    explain
  elif [ -n "$must_return" ] && tells_others; then
    status=$not_returned
  fi
  end_as_child
}
