#!/usr/bin/env bash
# The whole gate: every proof from nothing, wrong bodies that the prover must refuse, the tests and the programs; more wrong bodies, over
# what was proved; and the proved command on real images, beside sgdisk and sfdisk, on damaged tables, on bad input, on hostile images,
# under power cuts, and with memory refused and calls on the image failing. It ends with the line of `rt ci`.
#
# The wrong bodies, and what only compares with other tools, take turns by commit: a third of the bodies, half of the comparisons. TURN=all
# runs all of them, and TURN=N what the turn N has.
set -euo pipefail
cd "$(dirname "$0")"
export PATH="$PATH:/usr/sbin:/sbin"
tests/install.sh
# what an earlier build left
rm -rf crates/*/out
turn=${TURN:-$(git rev-list --count HEAD 2>/dev/null || echo 0)}
turns=(--turn "$turn")
[ "$turn" != all ] || turns=()
said=$(mktemp)
bodies=$(mktemp)
scripts=$(mktemp)
# the programs, those that only tests run, and the archive for callers in C, once they are proved
ptab="$PWD/crates/ptab/out/ptab"
doubles="$PWD/crates/test_doubles/out/test_doubles"
faults="$PWD/crates/test_faults/out/test_faults"
archive="$PWD/crates/pt_c/out/libpt_c.a"
# Beside `rt ci`, on processors that it leaves idle: more wrong bodies, each once what its crate stands on is proved, and the scripts, each
# once what it runs is. These run on all processors once `rt ci` has ended, and the wrong bodies on two, so those go first. Each has a
# process group of its own, so that nothing of it goes on where `rt ci` fails.
set -m
nice -n 10 python3 tests/wrong_bodies.py --beside "$said" "${turns[@]}" >"$bodies" 2>&1 &
trying=$!
nice -n 19 python3 tests/side_by_side.py --beside "$said" "${turns[@]}" >"$scripts" 2>&1 <<LIST &
../packaging/build.py --over-ci ptab pt_c
then callers/c_library.py "$ptab" "$archive"
then callers/disk_library.py "$ptab" "$archive"
then callers/bindings.py "$ptab" "$archive"
then callers/package.py "$ptab" "$archive"
then callers/install.py "$ptab" "$archive"
read_bodies.py
docs/texts.py
callers/c_messages.py
docs/meaning.py
failures/runs.py "$faults"
rows/rows.py "$ptab" "$doubles"
failures/hostile.py "$ptab" 8000
failures/no_memory.py "$ptab"
failures/no_device.py "$ptab"
rows/adopt.py "$ptab"
rows/data.py "$ptab"
failures/locks.py "$ptab"
failures/power_cut.py "$ptab"
failures/random_tables.py "$ptab"
failures/malicious.py "$ptab" "$doubles"
failures/long_plans.py "$ptab" "$doubles"
rows/rows_4096.py "$ptab" "$doubles"
rows/terminal.py "$ptab"
failures/repairs.py "$ptab"
even readers/readers.py "$ptab"
rows/reads.py "$ptab"
even peers/against_sfdisk.py "$ptab"
even peers/against_sgdisk.py "$ptab"
odd peers/real_images.py "$ptab"
odd peers/sfdisk_json.py "$ptab"
even peers/types.py "$ptab"
even peers/round_trips.py "$ptab"
peers/mbr_trips.py "$ptab"
failures/bad_input.py "$ptab"
docs/docs.py "$ptab"
docs/recipes.py "$ptab"
odd peers/from_sgdisk.py "$ptab"
odd peers/other_tools.py "$ptab"
failures/devices.py "$ptab"
failures/ptab_run.py "$ptab"
failures/killed_runs.py "$ptab"
peers/as_itself.py "$ptab"
peers/safe_tools.py "$ptab"
docs/man_page.py "$ptab"
alone failures/failing_drive.py "$ptab" "$archive"
LIST
running=$!
set +m
trap 'kill -- "-$trying" "-$running" 2>/dev/null || true; rm -f "$said" "$bodies" "$scripts"' EXIT
rt ci | tee "$said"
well=0
wait "$running" || well=$?
cat "$scripts"
wait "$trying" || well=$?
cat "$bodies"
[ "$well" = 0 ]
tail -n 1 "$said"
