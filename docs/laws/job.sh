# Prints a job. The variable KEY sets the random seed; without it all its digits are 0.
#
#   sh docs/laws/job.sh LIMIT RULE STEPS LANE..
limit=$1 rule=$2 steps=$3
shift 3
printf '%s\n' 'road 1' "key ${KEY:-$(printf '%064d' 0)}" "limit $limit"
printf 'lane %s\n' "$@"
printf '%s\n' "rule $rule" "steps $steps"
