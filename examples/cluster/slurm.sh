#!/usr/bin/env bash
#SBATCH --job-name=pbcube --cpus-per-task=1 --requeue --output=/dev/null
#SBATCH --time=24:00:00 --mem=2G
# Solves the pieces of an instance as an array job of Slurm. Time and memory above are examples. With 65 pieces, one for each task:
#
#   pbcube_pieces FILE --format opb --split 6 --out FOLDER
#   job=$(sbatch --parsable --array=0-64 slurm.sh FOLDER)
#   sbatch --dependency=afterany:$job slurm-join.sh FILE opb FOLDER
#
# An array has 1,001 tasks at most where Slurm's MaxArraySize is as it comes. So with 1,025 pieces, three for each task, which
# solves them one after the other:
#
#   job=$(sbatch --parsable --array=0-341 slurm.sh FOLDER 3)
#
# What was lost or killed has no report: the same line once more solves those pieces, and those whose reports were cut off, and passes
# over all others. The last line of FOLDER/joined.log names them as --array takes them, with one piece for each task: `run again: pieces
# 3,5-7`. A FOLDER with a report that is older than its index is refused, with status 2, as are words that are wrong. What a task says
# on standard error is also in FOLDER/task-NUMBER.log, where it says anything.
set -euo pipefail
[ $# -ge 1 ] && [ $# -le 2 ] || { echo "usage: slurm.sh FOLDER [PIECES]" >&2; exit 2; }

refuse() {
  echo "slurm.sh: $1" >&2
  exit 2
}

has_end() { # whether a report has its status, the values that belong to it, and the end of its last line
  grep -qE '^(v|s UN)' "$1" && grep -q '^s ' "$1" && tail -c 1 "$1" | grep -qx ''
}

[ -d "$1" ] && [ -w "$1" ] || refuse "FOLDER is a folder that can be written, with pieces by pbcube_pieces, and not '$1'"
[[ ${SLURM_ARRAY_TASK_ID:-} =~ ^[0-9]+$ ]] || refuse "it is run by sbatch --array, which gives it the number of a task"
cd "$1"
log=task-$SLURM_ARRAY_TASK_ID.log
exec 3>&2 2> "$log"
trap 'if [ -s "$log" ]; then cat "$log" >&3 || true; else rm -f "$log"; fi' EXIT
a_task=${2:-1}
[[ $a_task =~ ^[1-9][0-9]{0,8}$ ]] || refuse "PIECES is a number from 1 to 999999999, and not '$a_task'"
if [ ! -f index ]; then
  ! compgen -G '0*' | grep -E '^0+\.(opb|cnf)$' > /dev/null ||
    refuse "$1 has pieces and no index, so their cut was not finished: remove them, and cut again"
  refuse "$1 has no index: pbcube_pieces cuts an instance into it"
fi
# No report is tied to its piece, so one of an earlier cut would be taken for that of a new piece.
for report in *.report; do
  [ ! -s "$report" ] || [ ! "$report" -ot index ] ||
    refuse "$report is older than the index, so it may be of an earlier cut: remove it, or touch it where it is of this one"
done
mapfile -t pieces < <(grep -E '^[0-9]+\.(opb|cnf)$' index)
first=$((SLURM_ARRAY_TASK_ID * a_task)) solved=true
if [ "$first" -ge "${#pieces[@]}" ]; then
  echo "slurm.sh: there is no piece $first: they are 0 to $((${#pieces[@]} - 1))" >&2
fi
for piece in "${pieces[@]:first:a_task}"; do
  name=${piece%.*} status=0 look=''
  ! has_end "$name.report" 2> /dev/null || continue
  pbcube --format "${piece##*.}" "$piece" > "$name.part" || status=$?
  # The statuses 10, 20 and 30 are answers, and no others are; a report has its name only once it is whole.
  case $status in
    10 | 20 | 30) mv "$name.part" "$name.report" ;;
    *)
      [ ! -s "$name.part" ] || look=": look at $PWD/$name.part" # the report may tell why
      echo "slurm.sh: piece $name ended with status $status$look" >&2
      solved=false
      ;;
  esac
done
$solved
