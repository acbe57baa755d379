#!/bin/sh
# array.sh PLAN LIST OUT [JOBS [PROGRAM]]: counts the PTU files of a list, a path on each line, by an array of jobs in the queue of
# Slurm, 16 by default and no more than there are files, and adds up their sums by another job: OUT/sum.txt. OUT/*.left list the files that aren't in it, and
# why. The plan is copied once. After a fault, or with more files at the end of the list, the same words go on where it ended.
# PTULAB are the words before those of the command ptulab, by default ptulab itself; SBATCH is for more words of sbatch.
set -eu
plan=$1 list=$2 out=$3 jobs=${4:-16} program=${5:-ptu}
ptulab=${PTULAB:-ptulab}
for command in "${ptulab%% *}" "$program"; do
    command -v "$command" > /dev/null || { echo "array.sh: no command $command: PTULAB and the fifth word name them" >&2; exit 1; }
done
if [ "$jobs" -gt "$(grep -c . "$list")" ]; then
    echo "array.sh: $list has fewer files than there are jobs" >&2
    exit 1
fi
mkdir -p "$out/parts"
out=$(realpath "$out")
if [ -e "$out/plan.toml" ] && ! cmp -s "$plan" "$out/plan.toml"; then
    echo "array.sh: $out has counts of another plan" >&2
    exit 1
fi
cp "$plan" "$out/plan.toml"
cp "$list" "$out/files"
: > "$out/sums"
for job in $(seq 0 $((jobs - 1))); do echo "$out/parts/$job.sum" >> "$out/sums"; done

# 3 and 4 say that files were left, which is no fault of the job; what an earlier job had counted is added only once this one ended well
cat > "$out/count.sh" <<END
#!/bin/sh
part='$out/parts/'\$SLURM_ARRAY_TASK_ID
rm -f "\$part.sum"
$ptulab count '$out/plan.toml' --from '$out/files' --share "\$SLURM_ARRAY_TASK_ID/$jobs" --processes "\${SLURM_CPUS_PER_TASK:-1}" \\
    --program '$program' --left "\$part.left" -o "\$part.txt" || case \$? in 3) ;; 4) exit 0 ;; *) exit 1 ;; esac
ln "\$part.txt" "\$part.sum"
END
cat > "$out/sum.sh" <<END
#!/bin/sh
$ptulab sum --from '$out/sums' --left '$out/sum.left' -o '$out/sum.txt' || case \$? in 3 | 4) ;; *) exit 1 ;; esac
END
# shellcheck disable=SC2086
job=$(sbatch --parsable --requeue --job-name=ptulab-count --array="0-$((jobs - 1))" --output="$out/parts/%a.out" ${SBATCH:-} "$out/count.sh")
# shellcheck disable=SC2086
sbatch --parsable --job-name=ptulab-sum --dependency="afterany:${job%%;*}" --output="$out/sum.out" ${SBATCH:-} "$out/sum.sh"
