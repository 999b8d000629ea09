#!/bin/sh
#SBATCH --job-name=stencil
#SBATCH --cpus-per-task=4
#SBATCH --output=%x-%A_%a.log
# slurm.sh DIR IN OUT: one tile of an array job. DIR, IN and OUT lie where all nodes see them.
#
#   stencil tiles scene.alg 4096 4096 DIR
#   for k in DIR/*.alg; do stencil compile $k scene.sched ${k%.alg}.plan; done
#   sbatch --array=1-$(wc -l < DIR/list) slurm.sh DIR scene.pgm OUT
#
# Statuses 4, 5 and 6 may pass on another node, so the job is queued again; 1, 2 and 3 never do.
WORKERS=${SLURM_CPUS_PER_TASK:-1} sh "$(dirname "$0")/tile.sh" "$1" "$2" "$3" "$SLURM_ARRAY_TASK_ID"
status=$?
case $status in
  4|5|6) [ "${SLURM_RESTART_COUNT:-0}" -lt 3 ] && scontrol requeue "${SLURM_ARRAY_JOB_ID}_$SLURM_ARRAY_TASK_ID" ;;
esac
exit $status
