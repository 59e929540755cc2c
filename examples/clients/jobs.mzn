% Four people and four jobs: who does what, so that it takes the fewest hours.
include "alldifferent.mzn";

set of int: people = 1..4;
array[people, people] of int: hours = [| 9, 7, 2, 8 | 6, 4, 3, 7 | 5, 8, 4, 3 | 6, 9, 1, 4 |];
array[people] of var people: job;
var bool: ann_is_free;

constraint alldifferent(job);
constraint job[1] != 3 \/ job[3] = 2;
constraint ann_is_free <-> hours[1, job[1]] <= 7;
var int: total = sum(i in people)(hours[i, job[i]]) - 2 * bool2int(ann_is_free);

solve minimize total;
output ["jobs \(job), ann is free \(ann_is_free), total \(total)\n"];
