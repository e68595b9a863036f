#!/usr/bin/env bash
# models.sh: the paths of the nine models whose whole runs are measured: backups, cuts, states and values.
printf '%s\n' examples/{sample,inventory,inventory-named,liftparts,logistics}.txt \
    host/corpus/{cut-after-each-of-five-backups,meaning-best-action,meaning-two-vans,space-of-a-regression-at-2048}.txt
