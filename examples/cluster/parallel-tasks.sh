#!/usr/bin/env bash
# Solves an instance wherever there is a core, by tasks that tell each other what they find: has GNU parallel run them, and joins
# their reports.
#
#   parallel-tasks.sh FILE FORMAT SPLIT TASKS FOLDER [HOSTS]
#
# FOLDER gets the reports, and FOLDER/notes the notes of the tasks. HOSTS is a file of `cores/host` lines for --sshloginfile (each
# host has pbcube_task on its path, and sees FILE and FOLDER under these names); without it the cores here serve. More tasks than
# cores keep all cores busy: a task that has ended leaves its note for those that begin later.
# A lost host or a killed task costs its share alone: the same words once more run the tasks that have no report, or one that was
# cut off or in which a piece was cut, and join all. A FOLDER with a report of another file, split or number of tasks is refused,
# with status 2, as is one with a report that is none of a task, and as are words that are wrong.
set -euo pipefail
[ $# -ge 5 ] && [ $# -le 6 ] || { echo "usage: parallel-tasks.sh FILE FORMAT SPLIT TASKS FOLDER [HOSTS]" >&2; exit 2; }
file=$(realpath -m "$1") format=$2 split=$3 tasks=$4 hosts=()

refuse() {
  echo "parallel-tasks.sh: $1" >&2
  exit 2
}

[ -f "$file" ] && [ -r "$file" ] || refuse "FILE is a file that can be read, and not '$1'"
[[ $format =~ ^(opb|cnf|icnf)$ ]] || refuse "FORMAT is opb, cnf or icnf, and not '$format'"
[[ $split =~ ^([0-9]|1[0-2])$ ]] || refuse "SPLIT is a number from 0 to 12, and not '$split'"
[[ $tasks =~ ^[1-9][0-9]{0,8}$ ]] || refuse "TASKS is a number from 1 to 999999999, and not '$tasks'"
if [ $# -eq 6 ]; then
  [ -f "$6" ] && [ -r "$6" ] || refuse "HOSTS is a file that can be read, and not '$6'"
  hosts=(--sshloginfile "$(realpath "$6")")
fi
[[ $(parallel --version 2> /dev/null) == 'GNU parallel'* ]] || refuse "GNU parallel is not on the PATH: install it"
mkdir -p "$5" 2> /dev/null && [ -w "$5" ] || refuse "FOLDER is a folder that can be written, and not '$5'"
folder=$(realpath "$5")
cd "$folder"

has_end() { # whether a report has its status, and the values that belong to it up to the end of their line
  tail -n 1 "$1" | grep -qE $'^(v|s UNKNOWN\r?$)' && tail -c 1 "$1" | grep -qx ''
}

is_cut_off() { # whether it is the beginning of a task's report, or of nothing but zeros
  [[ 'c part ' == "$(head -c 7 "$1" | tr -d '\0')"* ]] && ! has_end "$1"
}

has_heading() { # whether its first line is that of a task's report
  head -n 1 "$1" | grep -qE '^c part [0-9]+ of [0-9]+ of instance [0-9a-f]{64}$'
}

digest=$(sha256sum < "$file" | cut -d ' ' -f 1)
for report in *.report; do
  [ -s "$report" ] || continue
  if is_cut_off "$report" || [[ $(head -n 1 "$report") == 'c refused'* ]]; then
    rm -f "$report" # what is refused is not of a division, so the folder can serve another one
    continue
  fi
  heading="c part ${report%.report} of $tasks of instance $digest"$'\nc pieces '
  has_heading "$report" || refuse "$folder/$report is no report of a task: its first line is '$(head -n 1 "$report" | head -c 99 | cat -v)'"
  [[ $(head -n 2 "$report") == "$heading"*" split $split cubes none" ]] ||
    refuse "$folder/$report is of another file, split or number of tasks: take another folder"
done

missing() { # the tasks that have no report, or an empty one, or one in which a piece was cut
  for ((task = 0; task < tasks; task++)); do
    grep -qsx 'c cut' "$task.report" || echo "$task"
  done
}

# With the statuses 0 and 10 what begins like a part is one, and what is refused is for the join, which tells it where all tasks
# refuse it. It gets the report's name only once it is whole; until then its name is another one in each process, so that the same
# task may run twice at a time. What else a task writes is shown.
printf -v words '%q ' --format "$format" --split "$split" --tasks "$tasks" --exchange notes "$file"
search="part={}.\$(uname -n).\$\$.part; pbcube_task --task {} $words > \$part; case \$? in 0 | 10) "
search+='if grep -q -e "^c part " -e "^s UNSUPPORTED" $part; then mv $part {}.report; else cat $part >&2; exit 1; fi ;; *) exit 1 ;; esac'
missing | parallel --workdir "$folder" "${hosts[@]}" --joblog +joblog "$search" || true
exec pbcube_join "$file" --format "$format" --tasks "$tasks" "$folder"
