# Draws docs/fastest.svg: how far twelve cars go from one initial road under rules that accelerate by at most one.
# Run it at the top of the repository, which has the folder study:
#
#   sh docs/laws/fastest.sh > study/fastest.svg
set -e
mkdir -p study/fan
job() { sh docs/laws/job.sh 5 "$1" 60 000000000000................................................; }
job 'nasch 0' > 'study/fan/nasch, p = 0.job'
job "own
$(cat examples/keep_distance.rule)
end" > study/fan/keep_distance.rule.job
for k in 1 2 3 4; do
    KEY=$(printf '%064d' "$k")
    export KEY
    job 'nasch 268435456' > "study/fan/nasch, p = 0.125, key $k.job"
    job 'nasch 536870912' > "study/fan/nasch, p = 0.25, key $k.job"
    job 'nasch 1073741824' > "study/fan/nasch, p = 0.5, key $k.job"
    job 'vdr 268435456 1610612736' > "study/fan/vdr, p = 0.125 and 0.75, key $k.job"
done
for job in study/fan/*.job; do ./trlab series < "$job" > "${job%.job}.csv"; done
cd study/fan
awk -f ../../docs/diagram.awk *0.csv *0.125,*.csv *0.25*.csv keep*.csv *0.5*.csv vdr*.csv
