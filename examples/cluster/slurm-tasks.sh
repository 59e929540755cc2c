#!/usr/bin/env bash
#SBATCH --job-name=pbcube-task --cpus-per-task=1 --requeue --output=/dev/null
#SBATCH --time=24:00:00 --mem=2G
# Searches an instance by tasks that tell each other what they find, as an array job of Slurm. Time, memory and processors above are
# examples; a task has as many workers as processors. With 16 tasks for the 65 pieces of split 6:
#
#   job=$(sbatch --parsable --array=0-15 slurm-tasks.sh FILE opb 6 16 FOLDER)
#   sbatch --dependency=afterany:$job slurm-join.sh FILE opb FOLDER 16
#
# All nodes see FILE and FOLDER, which gets the reports, and FOLDER/notes the notes of the tasks. What was lost or killed has no
# report: the same lines once more run those tasks, and those whose reports were cut off or have a piece that was cut, and pass over
# all others. FOLDER/joined.log names them as --array takes them. A task that is cancelled and runs again has its claims again, which
# name no node and no process. FOLDER/division tells the file, split and number of tasks: a task of another one ends with status 2, as
# one with wrong words does, and one whose report is none of a task, or of another division. Where there is no division, as in a folder
# of version 1.0.0, each report tells it. What a task says on standard error is also in FOLDER/task-NUMBER.log, where it says anything.
set -euo pipefail
[ $# -eq 5 ] || { echo "usage: slurm-tasks.sh FILE FORMAT SPLIT TASKS FOLDER" >&2; exit 2; }

refuse() {
  echo "slurm-tasks.sh: $1" >&2
  exit 2
}

has_end() { # whether a report has its status, and the values that belong to it up to the end of their line
  tail -n 1 "$1" | grep -qE $'^(v|s UNKNOWN\r?$)' && tail -c 1 "$1" | grep -qx ''
}

is_cut_off() { # whether it is the beginning of a task's report, or of nothing but zeros
  [[ 'c part ' == "$(head -c 7 "$1" | tr -d '\0')"* ]] && ! has_end "$1"
}

check_report() { # refuses the report of a task of another file, split or number of tasks, and what is no report of a task
  [ -s "$1" ] && ! is_cut_off "$1" && [[ $(head -n 1 "$1") != 'c refused'* ]] || return 0
  head -n 1 "$1" | grep -qE '^c part [0-9]+ of [0-9]+ of instance [0-9a-f]{64}$' ||
    refuse "$PWD/$1 is no report of a task: its first line is '$(head -n 1 "$1" | head -c 99 | cat -v)'"
  [[ $(head -n 2 "$1") == "c part ${1%.report} of $tasks of instance $digest"$'\nc pieces '*" split $split cubes none" ]] ||
    refuse "$PWD/$1 is of another file, split or number of tasks: take another folder"
}

[[ ${SLURM_ARRAY_TASK_ID:-} =~ ^[0-9]+$ ]] || refuse "it is run by sbatch --array, which gives it the number of a task"
file=$(realpath -m "$1") format=$2 split=$3 tasks=$4 task=$SLURM_ARRAY_TASK_ID status=0
mkdir -p "$5" 2> /dev/null && [ -w "$5" ] || refuse "FOLDER is a folder that can be written, and not '$5'"
cd "$5"
log=task-$task.log
exec 3>&2 2> "$log"
trap 'if [ -s "$log" ]; then cat "$log" >&3 || true; else rm -f "$log"; fi' EXIT
[ -f "$file" ] && [ -r "$file" ] || refuse "FILE is a file that can be read, and not '$1'"
[[ $format =~ ^(opb|cnf|icnf)$ ]] || refuse "FORMAT is opb, cnf or icnf, and not '$format'"
[[ $split =~ ^([0-9]|1[0-2])$ ]] || refuse "SPLIT is a number from 0 to 12, and not '$split'"
[[ $tasks =~ ^[1-9][0-9]{0,8}$ ]] || refuse "TASKS is a number from 1 to 999999999, and not '$tasks'"

# The first task writes which division the folder is for. The file gets its name only once it is whole, and is never overwritten.
part=$task.$(uname -n).$$.part
digest=$(sha256sum < "$file" | cut -d ' ' -f 1)
division="instance $digest split $split tasks $tasks"
if [ ! -e division ]; then
  for report in *.report; do
    check_report "$report"
  done
  echo "$division" > "$part"
  mv -n "$part" division || true
  rm -f "$part"
fi
if [ "$(cat division)" != "$division" ]; then
  advice='take another folder'
  grep -qs '^c part ' ./*.report || advice+=", or remove $PWD/division, since none of its tasks has a result"
  refuse "$PWD is of another file, split or number of tasks: $advice"
fi
check_report "$task.report"
! grep -qsx 'c cut' "$task.report" || ! has_end "$task.report" || exit 0

# With the statuses 0 and 10 what begins like a part is one, and what is refused is for the join, which tells it where all tasks
# refuse it. It gets the report's name only once it is whole; until then its name is another one in each process, so that the same
# task may run twice at a time. What else a task writes is told.
pbcube_task --format "$format" --split "$split" --workers "${SLURM_CPUS_PER_TASK:-1}" --task "$task" --tasks "$tasks" \
  --exchange notes "$file" > "$part" || status=$?
if [[ $status =~ ^(0|10)$ ]] && grep -q -e '^c part ' -e '^s UNSUPPORTED' "$part"; then
  mv "$part" "$task.report"
else
  echo "slurm-tasks.sh: task $task ended with status $status" >&2
  cat "$part" >&2
  exit 1
fi
