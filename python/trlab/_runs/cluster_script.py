"""The script of a folder of inputs, for Slurm, GNU parallel or a single machine."""
from __future__ import annotations

import shlex
from pathlib import Path

_SCRIPT = """#!/bin/sh
#SBATCH --array=1-{tasks} --cpus-per-task=1 --output={output}
# Task i of the array runs up to {per_task} of the {inputs} inputs that array.txt lists. Without a task number this
# script runs all of them, one after the other. With GNU parallel:
#     seq {tasks} | parallel SLURM_ARRAY_TASK_ID={{}} sh {script}
# A result is complete or absent: trlab writes to a hidden file, which is moved into place if trlab ends with status 0
# and the file has all lines of this input. Inputs that have a result are skipped. NAME.error says why another has none.
cd -- {folder} || exit 1
program={program}
tab=$(printf '\\t')
last=$((${{SLURM_ARRAY_TASK_ID:-1}} * {per_task}))
range="$((last - {per_task} + 1)),${{last}}p"
[ "${{SLURM_ARRAY_TASK_ID:-}}" ] || range='p'
status=0 new='' running=''
stop() {{
    [ -z "$running" ] || kill "$running" 2>/dev/null
    [ -z "$new" ] || rm -f -- "$new"
    exit 143
}}
trap stop HUP INT TERM
# All results of a folder are of one program: of that in array.program.
version=$("$program" --version | head -n 1)
case $version in
    'trlab '*) ;;
    *) echo "$program is not trlab: it does not answer to --version as trlab does" >&2 && exit 1 ;;
esac
identity="$version $(sha256sum < "$(command -v -- "$program")" | cut -c 1-64)"
if ! [ -e array.program ]; then
    new=".array.new.$(uname -n).$$"
    echo "$identity" > "$new" && ln -- "$new" array.program 2>/dev/null
    rm -f -- "$new"
fi
if [ "$(cat array.program)" != "$identity" ]; then
    echo "$program is $identity, and this folder is for $(cat array.program): take another folder, or call write_inputs again" >&2
    exit 1
fi
# Why there is no result, from the exit status and the first line that trlab wrote.
reason() {{
    message=$(head -n 1 -- "$new" | cut -c 1-200)
    case $1 in
        0) echo "trlab wrote $(wc -l < "$new") of $lines lines" ;;
        1) echo "trlab ended with status 1: $message" ;;
        2) echo "trlab ended with status 2: the words are invalid: $words" ;;
        3) echo "trlab ended with status 3: memory ran out" ;;
        4) echo "trlab ended with status 4: reading the input or writing the output failed" ;;
        *) echo "trlab ended with status $1" ;;
    esac
}}
while IFS="$tab" read -r lines kind result words name; do
    [ "$name" ] && ! [ -e "$name.$result" ] || continue
    new=".$name.new.$(uname -n).$$"
    "$program" $words < "$name.$kind" > "$new" &
    running=$!
    wait "$running"
    code=$?
    if [ "$code" -eq 0 ] && [ "$(wc -l < "$new")" -eq "$lines" ] && mv -f -- "$new" "$name.$result"; then
        rm -f -- ".$name.new."* "$name.error"
    else
        [ "$code" -eq 0 ] && status=1 || status=$code
        why=$(reason "$code")
        echo "$name.$kind has no result, $why" >&2
        echo "$why" > "$name.error"
        rm -f -- "$new"
    fi
    new='' running=''
done <<END
$(sed -n "$range" array.txt)
END
exit $status
"""


def script_of(folder: Path, program: str, inputs: int, per_task: int) -> str:
    """The script for this number of inputs, of which a task runs up to `per_task`. The folder has a name of one
    line."""
    return _SCRIPT.format(
        folder=shlex.quote(str(folder)),
        # Slurm replaces a percent sign and the character after it.
        output=shlex.quote(str(folder).replace("%", "%%") + "/slurm-%A_%a.out"),
        script=shlex.quote(str(folder / "array.sh")),
        program=shlex.quote(program),
        per_task=per_task,
        inputs=inputs,
        tasks=max(1, -(-inputs // per_task)),
    )
