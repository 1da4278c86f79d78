"""ptab-run where the lock is a caller's, where the copy stands under the image's own path, and where it stands at all: see ptab_run.py."""
import os
import subprocess
import time

import devices
from loops import parts_of
from tools import must, run

NOBODY = 65534
ALONE = ("setpriv", f"--reuid={NOBODY}", f"--regid={NOBODY}", "--clear-groups")
LONG = 20 << 40


def as_itself(it, *words, path=None, **more):
    return it.do("--as-itself", path or it.path, *words, **more)


# ---- the lock


def locked(it, path, *options):
    """What a run is told of another program's lock."""
    line = f"{path} isn't touched: another process has locked it\n".replace(it.folder, "FOLDER")
    rename, copy = [it.ptab, "edit", "@", "c:1:new"], f"{it.folder}/copy"
    with it.locked(path):
        for words in ([], ["--plan"]):
            it.same(f"locked {words}", it.do(*options, *words, path, *rename), ("", line, 123))
        it.same("locked --save", it.do(*options, "--save", copy, path), ("", line, 123))
        it.same("--no-lock", it.do(*options, "--no-lock", path, *rename)[1:], ("done\n", 0))
        it.same("--no-lock --save", it.do(*options, "--no-lock", "--save", copy, path), ("", "", 0))
    os.unlink(copy)
    with it.locked(path, "-s"):
        it.same("a shared lock", it.do(*options, path, *rename), ("", line, 123))
        it.same("a shared lock, and a look", it.do(*options, "--plan", path, "true", "@")[1:], ("true changed nothing\n", 0))


def callers(it, path, *options):
    """A lock that a caller holds isn't another program's."""
    words = [it.run_file, *options, path, it.ptab, "edit", "@"]
    shell = ["bash", "-c", f'exec 9<>"{path}"; flock -x 9; "$@"', "sh"]
    ways = {"flock": ["flock", path], "a descriptor": shell, "a shared one of the caller": ["flock", "-s", path]}
    if options and run("udevadm", "lock", "--help").returncode == 0:
        ways["udevadm"] = ["udevadm", "lock", "--device", path]
    for number, (name, way) in enumerate(ways.items()):
        done = subprocess.run([*way, *words, f"c:1:name{number}"], capture_output=True, text=True, env=it.where)
        wanted = (123, "another process has locked it") if "shared" in name else (0, "done")
        it.same(f"{name}: {done.stderr}", (done.returncode, wanted[1] in done.stderr), (wanted[0], True))
        it.same(f"{name}: the lock is free again", run("flock", "-n", path, "true").returncode, 0)


def locks(it):
    locked(it, it.gpt())
    callers(it, it.gpt())
    it.gpt()
    with devices.Loop(it.path) as loop:
        locked(it, loop.path, "--device")
        callers(it, loop.path, "--device")


# ---- the image's own path


def seen(it):
    """The program sees the copy where the image is, and only it does; what else it writes stays."""
    it.gpt()
    before = it.image()
    tool = it.script("tool", f'ptab edit {it.path} c:1:new; cp {it.path} {it.folder}/seen; sleep 1; echo told; echo also >&2')
    watched = subprocess.Popen([it.run_file, "--as-itself", it.path, tool], stdout=subprocess.PIPE, stderr=subprocess.PIPE, text=True,
                               env=it.where)
    while not os.path.exists(f"{it.folder}/seen") or len(it.image(f"{it.folder}/seen")) < len(before):
        time.sleep(0.02)
    it.same("others see the image", (it.image() == before, it.folder in must("cat", "/proc/self/mountinfo")), (True, False))
    out, errors = watched.communicate()
    it.same("its output, and the end", (out, errors, watched.returncode), ("done\ntold\n", "also\nptab-run: done\n", 0))
    it.same("what it saw, and the image", (it.names(f"{it.folder}/seen"), it.names()), (["new"], ["new"]))
    it.same("--plan", as_itself(it, it.ptab, "edit", it.path, "c:1:more")[1:], ("done\n", 0))
    behind = it.script("behind", f'exec 5<>{it.path}; (sleep 0.6; ptab edit --no-lock {it.path} c:1:late) >/dev/null 2>&1 & '
                       f'ptab edit {it.path} c:1:first >/dev/null')
    it.same("what goes on behind it", (as_itself(it, behind)[1:], it.names()), (("done\n", 0), ["first"]))
    time.sleep(1.2)
    it.same("what goes on behind it, later", it.names(), ["first"])
    it.same("another name again", as_itself(it, it.ptab, "edit", it.path, "c:1:more")[1:], ("done\n", 0))
    out, errors, status = it.do("--as-itself", "--plan", it.path, it.ptab, "edit", it.path, "c:1:planned")
    it.same("--plan: a plan", (out.startswith("W "), errors, status, it.names()), (True, "done\n", 0, ["more"]))
    it.same("--quiet", it.do("--quiet", "--as-itself", it.path, it.ptab, "edit", it.path, "c:1:quiet"), ("done\n", "", 0))
    it.same("--quiet, by @", it.do("--quiet", it.path, it.ptab, "edit", "@", "c:1:silent"), ("done\n", "", 0))
    it.same("--quiet, nothing", it.do("--quiet", it.path, "true", "@"), ("", "", 0))
    it.same("--quiet, a failure", it.do("--quiet", it.path, "false", "@"), ("", "", 1))
    for tool, status in ((["sh", "-c", "exit 7"], 7), (["sh", "-c", "kill -9 $$"], 137)):
        found = as_itself(it, *tool)
        it.same(tool, found[1:], (f"sh ended with status {status}: FOLDER/disk.img isn't touched\n", status))
    it.same("`@` is a word as any other", as_itself(it, "echo", "@"), ("@\n", "echo changed nothing\n", 0))
    it.same("no program", as_itself(it, "nowhere")[1:], ("nowhere: no program that can be run\n", 127))
    it.same("no program, but a file", as_itself(it, it.path)[1:], ("FOLDER/disk.img: no program that can be run\n", 126))


def by_links(it):
    """By whichever name the program calls the image: a link, a path from the folder, one that begins with `-`."""
    it.gpt(f"{it.folder}/-x.img")
    os.symlink(f"{it.folder}/-x.img", it.path)
    names = ("-x.img", f"{it.folder}/-x.img", it.path)
    for number, name in enumerate(names):
        for path in names:
            tool = it.script("edits", f'ptab edit -- "$1" "c:1:name{number}$2" >/dev/null')
            done = it.do("--as-itself", "--", name, tool, path, str(names.index(path)), cwd=it.folder)
            it.same(f"{name}, {path}", (done[1:], it.names(f"{it.folder}/-x.img")), (("done\n", 0), [f"name{number}{names.index(path)}"]))
    os.unlink(it.path)


def descriptors(it):
    """What the caller had open the program has open; and the image by another name is the image itself, which is told."""
    it.gpt()
    done = subprocess.run(["bash", "-c", 'exec 7<<<told; "$@"', "sh", it.run_file, "--as-itself", it.path, "sh", "-c", "cat <&7"],
                          capture_output=True, text=True, env=it.where)
    it.same("an open file", (done.stdout, done.returncode), ("told\n", 0))
    os.link(it.path, f"{it.folder}/other")
    found = as_itself(it, it.ptab, "edit", "--no-lock", f"{it.folder}/other", "c:1:behind")
    it.same("another name", (found[1], found[2]), ("FOLDER/disk.img was changed meanwhile, and not by this run\n", 123))
    os.unlink(f"{it.folder}/other")


def may_nobody(it):
    """Whether another user may run what is tried here, wherever the repository is."""
    return run(*ALONE, it.run_file, "--version", env=it.where).returncode == 0


def as_nobody(it):
    """Without root, in a user namespace, the program has the caller's own number; and where there is none, it is said."""
    it.gpt()
    os.chmod(os.path.dirname(it.folder), 0o755)
    for path in (it.folder, f"{it.folder}/left", it.path):
        os.chown(path, NOBODY, NOBODY)
    tool = it.script("edits", f'id -u; id -g; exec {it.ptab} edit {it.path} c:1:new')
    done = subprocess.run([*ALONE, it.run_file, "--as-itself", it.path, tool], capture_output=True, text=True, env=it.where)
    if may_nobody(it) and run(*ALONE, "unshare", "--map-root-user", "--mount", "true").returncode == 0:
        it.same(f"nobody: {done.stderr}", (done.stdout, done.stderr, done.returncode, it.names()),
                (f"{NOBODY}\n{NOBODY}\ndone\n", "ptab-run: done\n", 0, ["new"]))
    os.mkdir(f"{it.folder}/none")
    os.symlink("/usr/bin/python3", f"{it.folder}/none/python3")
    before = it.image()
    done = subprocess.run(["/usr/bin/python3", "-I", it.run_file, "--as-itself", it.path, tool], capture_output=True, text=True,
                          env={**it.where, "PATH": f"{it.folder}/none"})
    it.same("no unshare", (done.stderr, done.returncode, it.image() == before), (
        f"ptab-run: {it.path} isn't touched: its copy can't stand where it is: unshare isn't there; without --as-itself `@` stands for the "
        "copy\n", 126, True))


def as_devices(it):
    """A device's copy is a device, with its partitions' nodes; what is written within a partition isn't taken over."""
    with open(it.path, "wb") as disk:
        disk.truncate(8 << 20)
    must("sfdisk", "-q", it.path, input="label: gpt\nstart=2048,size=2048\nstart=4096,size=2048\nstart=8192,size=1024\n")
    with devices.Loop(it.path) as loop:
        parts = loop.make_partitions()
        held = os.open(parts[0], os.O_RDONLY)
        numbers = [os.stat(part).st_rdev for part in parts]
        tool = it.script("looks", f'blockdev --getsz {loop.path} {" ".join(parts)}; sfdisk -q --delete {loop.path} 2; '
                         f'cat /sys/dev/block/$(lsblk -no MAJ:MIN {loop.path} | head -1 | tr -d " ")/loop/backing_file')
        out, lines, status = it.do("--as-itself", "--device", "--in-use", loop.path, tool)
        it.same("what it sees", (out.split()[:4], "/left/ptab-run-" in out, lines, status),
                (["16384", "2048", "2048", "1024"], True, "done\n", 0))
        it.same("the kernel's partitions", parts_of(loop.path), {1: (2048, 2048), 3: (8192, 1024)})
        it.same("the disk's own name", f"\n{parts[2]} : start= " in it.do("--as-itself", "--device", "--in-use", loop.path, "sfdisk", "-d",
                                                                       loop.path)[0], True)
        it.same("those that stay have their nodes", [os.stat(part).st_rdev for part in parts if os.path.exists(part)], numbers[::2])
        os.close(held)
        found = it.do("--as-itself", "--device", loop.path, "sh", "-c", f"echo data >{parts[0]}; sfdisk -q --part-label {loop.path} 3 x")
        it.same("data in a partition", (found[1], found[2]), (
            f"not taken over: data in sectors 2048\n{loop.path} isn't touched; --lossy goes on without that\n", 123))
        it.same("loop devices", [line for line in must("losetup", "--list").splitlines() if it.folder + "/left" in line], [])
    with devices.Loop(it.path) as loop:
        os.chmod(loop.path, 0o666)
        done = run(*ALONE, it.run_file, "--as-itself", "--device", loop.path, "true", env={**it.where, "TMPDIR": "/tmp"})
        os.chmod(loop.path, 0o600)
        line = (f"ptab-run: {loop.path} isn't touched: its copy can't stand where it is: root is needed for that; without --as-itself `@` "
                "stands for the copy\n")
        if may_nobody(it):
            it.same("a device without root", (done.stderr, done.returncode), (line, 126))


# ---- disks of any length, and what a killed run left


def small(it):
    """A folder in a file system of ext4, which takes no file above 16 TiB."""
    place, disk = f"{it.folder}/small.mount", f"{it.folder}/small"
    os.mkdir(place)
    with open(disk, "wb") as file:
        file.truncate(64 << 20)
    must("mke2fs", "-q", "-F", "-t", "ext4", "-b", "4096", disk)
    must("mount", "-o", "loop", disk, place)
    return place


def long_disks(it):
    """A file system that takes no file of the disk's length is passed over."""
    place = small(it)
    path = f"/dev/shm/{os.path.basename(it.folder)}.img"
    try:
        with open(path, "wb") as disk:
            disk.truncate(LONG)
        where = {**it.where, "TMPDIR": place}
        words = [it.run_file, path, "sgdisk", "-n", "1:2048:0", "-c", "1:long", "@"]
        done = subprocess.run(words, capture_output=True, text=True, env=where)
        it.same(f"a long image: {done.stderr}", (done.returncode, it.names(path)), (0, ["long"]))
        it.same("what is left there", os.listdir(place), ["lost+found"])
        with devices.Loop(path) as loop:
            done = subprocess.run([it.run_file, "--as-itself", "--device", loop.path, "sgdisk", "-c", "1:device", loop.path],
                                  capture_output=True, text=True, env=where)
            it.same(f"a long device: {done.stderr}", (done.returncode, it.ptab_says("show", "--device", loop.path)[0].split()[-1]),
                    (0, "device"))
            script = f"mount --bind {place} /dev/shm; cd /dev/shm; \"$@\""
            done = run("unshare", "-m", "sh", "-c", script, "sh", it.run_file, "--device", loop.path, "true", "@",
                       env={**where, "TMPDIR": "/dev/shm"})
            it.same("none takes it", (done.stderr, done.returncode), (
                f"ptab-run: {loop.path} isn't touched: of /dev/shm, /dev/shm, . none takes a file as long as it, {LONG} bytes; TMPDIR may "
                "name another folder\n", 125))
    finally:
        os.unlink(path)
        must("umount", place)


def swept(it):
    """The folder that a killed run left goes with the next run, a minute later; that of a run at work stays, as do those of others."""
    left = f"{it.folder}/left"
    it.gpt()
    script = it.script("waits", 'echo >"$0.began"; exec sleep 20')
    child = subprocess.Popen([it.run_file, it.path, script, "@"], env=it.where)
    while not os.path.exists(f"{script}.began"):
        time.sleep(0.02)
    made = os.listdir(left)
    other = it.gpt(f"{it.folder}/other.img")
    for age in (0, 120):
        for name in made:
            os.utime(f"{left}/{name}", (time.time() - age, time.time() - age))
        subprocess.run([it.run_file, other, "true", "@"], env=it.where, check=True, capture_output=True)
        it.same(f"a run at work, {age}", os.listdir(left), made)
    child.kill()
    child.wait()
    os.mkdir(f"{left}/other")
    os.symlink(it.folder, f"{left}/ptab-run-link")
    for age, wanted in ((0, [*made, "other", "ptab-run-link"]), (120, ["other", "ptab-run-link"])):
        for name in made:
            os.utime(f"{left}/{name}", (time.time() - age, time.time() - age))
        subprocess.run([it.run_file, other, "true", "@"], env=it.where, check=True, capture_output=True)
        it.same(f"a killed run, {age}", sorted(os.listdir(left)), sorted(wanted))
    os.rmdir(f"{left}/other")
    os.unlink(f"{left}/ptab-run-link")


def all_of(it):
    """Whether devices were tried."""
    has_loops = devices.has_loops(it.folder)
    it.each([seen, by_links, descriptors, swept, *([as_nobody] if os.geteuid() == 0 else []),
             *([locks, as_devices, long_disks] if has_loops else [])])
    return has_loops
