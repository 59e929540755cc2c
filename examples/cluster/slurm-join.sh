#!/usr/bin/env bash
#SBATCH --job-name=pbcube-join --cpus-per-task=1 --requeue --output=/dev/null
#SBATCH --time=1:00:00 --mem=2G
# Joins the reports of an instance's pieces as a job of Slurm, after those of slurm.sh have ended, or the reports of TASKS tasks,
# after those of slurm-tasks.sh:
#
#   sbatch --dependency=afterany:JOB slurm-join.sh FILE FORMAT FOLDER [TASKS]
#
# The report is FOLDER/joined, and FOLDER/joined.log names the pieces or tasks that are missing. The job ends with 0 where the
# report has an assignment or says that there is none. It ends with 2 where the words are wrong, or FOLDER has a report of a piece that
# is older than its index, and else with 1. What it says on standard error is also in FOLDER/joined.log.
set -euo pipefail
[ $# -ge 3 ] && [ $# -le 4 ] || { echo "usage: slurm-join.sh FILE FORMAT FOLDER [TASKS]" >&2; exit 2; }
file=$1 format=$2 folder=$3 tasks=${4:-1} status=0

refuse() {
  echo "slurm-join.sh: $1" >&2
  exit 2
}

has_end() { # whether a report has its status, the values that belong to it, and the end of its last line
  grep -qE '^(v|s UN)' "$1" && grep -q '^s ' "$1" && tail -c 1 "$1" | grep -qx ''
}

[ -d "$folder" ] && [ -w "$folder" ] || refuse "FOLDER is a folder that can be written, with reports, and not '$folder'"
rm -f "$folder/joined"
exec 3>&2 2> "$folder/joined.log"
trap 'cat "$folder/joined.log" >&3 || true' EXIT
[ -f "$file" ] && [ -r "$file" ] || refuse "FILE is a file that can be read, and not '$1'"
[[ $format =~ ^(opb|cnf|icnf)$ ]] || refuse "FORMAT is opb, cnf or icnf, and not '$format'"
[[ $tasks =~ ^[1-9][0-9]{0,8}$ ]] || refuse "TASKS is a number from 1 to 999999999, and not '$tasks'"
[ $# -eq 4 ] || [ ! -e "$folder/division" ] ||
  refuse "FOLDER has reports of tasks, so give TASKS too: it is the number at the end of $folder/division"
# No report is tied to its piece, so one of an earlier cut would be taken for that of a new piece.
for report in "$folder"/*.report; do
  [ $# -eq 4 ] || [ ! -s "$report" ] || [ ! "$report" -ot "$folder/index" ] ||
    refuse "$report is older than the index, so it may be of an earlier cut: remove it, or touch it where it is of this one"
done
pbcube_join "$file" --format "$format" ${4:+--tasks "$4"} "$folder" > "$folder/joined.part" || status=$?
mv "$folder/joined.part" "$folder/joined"
for report in "$folder"/*.report; do
  [ $status != 1 ] || [ ! -s "$report" ] || has_end "$report" || echo "slurm-join.sh: $report was cut off: run that task again" >&2
done
case $status in
  10 | 20 | 30) ;;
  *) exit 1 ;;
esac
