#!/usr/bin/env bash
#SBATCH --job-name=stlslice
#SBATCH --ntasks=1
#SBATCH --cpus-per-task=1
#SBATCH --output=%x-%A-%a.log
# One task of a Slurm array: slices one slab of a part and leaves its images in a folder.
#
#   mkdir slabs
#   stlslice-slabs -p 50 -l 50 -n 64 --words part.stl > slabs/words
#   sbatch --array=0-$(($(wc -l < slabs/words) - 1)) examples/slabs.sbatch part.stl slabs
#   cat slabs/*.pbm > layers.pbm                 # when all tasks are done
#
# Task K takes line K of slabs/words and makes slabs/0000K.pbm: aside first, moved into place when it is whole. So a
# slab that is there is whole, a task that ran may run again, and a task that failed left nothing. Both words are
# paths that the machine of the task sees. STLSLICE names the slicer (stlslice on PATH).
set -euo pipefail
part=$1 folder=$2
number=$SLURM_ARRAY_TASK_ID
words=$(sed -n "$((number + 1))p" "$folder/words")
if [[ -z $words ]]; then
  echo "slabs.sbatch: $folder/words has no line for task $number" >&2
  exit 2
fi
slab=$folder/$(printf %05d "$number").pbm
aside=$slab.${SLURM_JOB_ID:-$$}.part
trap 'rm -f "$aside"' EXIT
read -ra words <<< "$words"
"${STLSLICE:-stlslice}" "${words[@]}" < "$part" > "$aside"
mv "$aside" "$slab"
