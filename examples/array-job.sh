#!/usr/bin/env bash
#SBATCH --array=0-99
#SBATCH --cpus-per-task=1
# A task of an array job of Slurm: carries out its share of the scenes of a folder, one process a scene.
# It is started in the folder that holds `policies`:
#
#   FAPIPOL=/path/to/fapipol sbatch array-job.sh SCENES RESULTS
set -u
scenes=$1
results=$2
task=${SLURM_ARRAY_TASK_ID:-0}
tasks=${SLURM_ARRAY_TASK_COUNT:-1}

number=0
for scene in "$scenes"/*.json; do
    if [ $((number % tasks)) -eq "$task" ]; then
        result=$results/$(basename "$scene")
        "$FAPIPOL" explain <"$scene" >"$result" || echo "status $?" >>"$result"
    fi
    number=$((number + 1))
done
