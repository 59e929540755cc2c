#!/usr/bin/env bash
# Solves an instance wherever there is a core: cuts it into pieces, has GNU parallel solve each, and joins the reports.
#
#   parallel.sh FILE FORMAT SPLIT FOLDER [HOSTS]
#
# HOSTS is a file of `cores/host` lines for --sshloginfile (each host has pbcube on its path); without it the cores here serve.
# A lost host or a killed solver costs its pieces alone: the same words once more solve the pieces that have no report, or one that was
# cut off, and join all. A FOLDER with the pieces of another file or of another split, with pieces or reports and no index, or with an
# index that is newer than a report, is refused, with status 2, as are words that are wrong.
set -euo pipefail
[ $# -ge 4 ] && [ $# -le 5 ] || { echo "usage: parallel.sh FILE FORMAT SPLIT FOLDER [HOSTS]" >&2; exit 2; }
file=$1 format=$2 split=$3 folder=$4 hosts=() where='$PWD' # the folder of a piece, once it runs

told() { # what the index tells under this word
  sed -n "s/^$1 //p" "$folder/index"
}

has_pieces() { # whether the first piece is there, whose number has as many digits as the last one's
  compgen -G "$folder/0*" | grep -E '/0+\.(opb|cnf)$' > /dev/null
}

refuse() {
  echo "parallel.sh: $1" >&2
  exit 2
}

[ -f "$file" ] && [ -r "$file" ] || refuse "FILE is a file that can be read, and not '$1'"
[[ $format =~ ^(opb|cnf|icnf)$ ]] || refuse "FORMAT is opb, cnf or icnf, and not '$format'"
[[ $split =~ ^([0-9]|1[0-2])$ ]] || refuse "SPLIT is a number from 0 to 12, and not '$split'"
[[ ! -e $folder || (-d $folder && -w $folder) ]] || refuse "FOLDER is a folder that can be written, and not '$folder'"
if [ $# -eq 5 ]; then
  [ -f "$5" ] && [ -r "$5" ] || refuse "HOSTS is a file that can be read, and not '$5'"
  hosts=(--sshloginfile "$(realpath "$5")" --transferfile '{}' --return '{.}.report' --cleanup)
  where='$(uname -n):$PWD'
fi
[[ $(parallel --version 2> /dev/null) == 'GNU parallel'* ]] || refuse "GNU parallel is not on the PATH: install it"

if [ -e "$folder/index" ]; then
  # One piece for each cube of the split, one for each that an iCNF file has itself, and the remainder.
  pieces=$((1 + (split > 0 ? 1 << split : 0)))
  [ "$format" != icnf ] || pieces=$((pieces + $(sed '/^[[:space:]]*%/q' "$file" | grep -cE '^[[:space:]]*a([[:space:]]|$)' || true)))
  [ "$(tail -n +5 "$folder/index" | wc -l)" = "$(told pieces)" ] ||
    refuse "$folder/index is not whole, so the cut was not finished: remove it and the pieces, or take another folder"
  [ "$(told sha256)" = "$(sha256sum < "$file" | cut -d ' ' -f 1)" ] || refuse "$folder has the pieces of another file than $file"
  [ "$(told pieces)" = "$pieces" ] || refuse "$folder has $(told pieces) pieces, and this split makes $pieces"
  for report in "$folder"/*.report; do
    [ ! -s "$report" ] || [ ! "$report" -ot "$folder/index" ] ||
      refuse "$report is older than the index, so it may be of an earlier cut: remove it, or touch it where it is of this one"
  done
else
  # No report is tied to its piece, so one of an earlier cut would be taken for that of a new piece.
  ! compgen -G "$folder/*.report" > /dev/null || refuse "$folder has reports of pieces that were cut before: take another folder"
  ! has_pieces || refuse "$folder has pieces and no index, so their cut was not finished: remove them, or take another folder"
  pbcube_pieces "$file" --format "$format" --split "$split" --out "$folder" >&2
fi

has_end() { # whether a report has its status, the values that belong to it, and the end of its last line
  grep -qE '^(v|s UN)' "$1" && grep -q '^s ' "$1" && tail -c 1 "$1" | grep -qx ''
}

missing() { # the pieces that have no report, or an empty one, or one that was cut off
  grep -E '^[0-9]+\.(opb|cnf)$' index | while read -r piece; do
    has_end "${piece%.*}.report" 2> /dev/null || echo "$piece"
  done
}

# The statuses 10, 20 and 30 are answers, and no others are; a report has its name only once it is whole. What a run with another
# status has written may tell why.
solve='pbcube --format {= s/.*\.// =} {} > {.}.part; ended=$?; case $ended in 10 | 20 | 30) mv {.}.part {.}.report ;; *) '
solve+="[ ! -s {.}.part ] || echo \"parallel.sh: piece {.} ended with status \$ended: look at $where/{.}.part\" >&2; exit 1 ;; esac"
(cd "$folder" && missing | parallel "${hosts[@]}" --no-run-if-empty --joblog +joblog "$solve") || true
status=0
pbcube_join "$file" --format "$format" "$folder" || status=$?
for report in "$folder"/*.report; do
  [ $status != 1 ] || [ ! -s "$report" ] || has_end "$report" ||
    echo "parallel.sh: $report was cut off: the same words once more run that piece again" >&2
done
exit $status
