"""stlslice-slabs, as installed, and examples/slabs.sbatch: the slabs' images, joined, are those of the whole, and a slab
that fails leaves nothing. With GNU parallel, on this machine and over ssh to a server of the test's own."""

import glob
import os
import shutil
import signal
import socket
import subprocess
import sys
import time
import unittest

from as_installed import OPEN, OPEN_LINE, SLABS, keeps_the_part, slicer
from common import (BRACKET, PROGRAM, ROOT, Case, add_batch_system, alone, bytes_of, example, has_ended, needs, same, skip,
                    waited)
from parts import box, text

BATCH = example("slabs.sbatch")
COARSE = ["--pitch", "200", "--layer", "300"]
SHORT = ["-p", "200", "-l", "300"]


class Slabs(Case):
    def whole(self, part=BRACKET, words=COARSE):
        return self.room.out("stlslice", *words, path=part, text=False)

    def lines(self, *words):
        return self.room.out(SLABS, *words).splitlines()

    def slicer(self, body):
        return slicer(self.room, body, box="1000 1000 900")


class Words(Slabs):
    def test_words_are_slabs_of_the_whole(self):
        """Slabs of 1, 7, 30, 90 and 200 layers of a part of 90; and a part of whose layers and columns none is whole."""
        odd = self.room.put("odd part.stl", text(box(("-0.101", "-3", "-7.0003"), ("5.3", "0.0996", "1.1111"))))
        for per, slabs, part in ((1, 90, BRACKET), (7, 13, BRACKET), (30, 3, BRACKET), (90, 1, BRACKET), (200, 1, BRACKET),
                                 (10, 3, odd)):
            lines = self.lines(*SHORT, "-n", str(per), "--words", part)
            same(len(lines), slabs, f"slabs of {per} layers")
            assert b"".join(self.whole(part, line.split()) for line in lines) == self.whole(part), "bytes differ"

    def test_words_are_pngs_of_the_whole(self):
        for pngs in (["--png"], ["--png", "--depth", "1", "--mirror-x", "--mirror-y"]):
            lines = self.lines(*SHORT, *pngs, "-n", "30", "--words", BRACKET)
            same(len(lines), 3, "slabs of 30 layers")
            wanted = self.whole(words=[*COARSE, *pngs])
            assert b"".join(self.whole(words=line.split()) for line in lines) == wanted, "bytes differ"

    def test_a_pipe_gives_words_alone(self):
        """A part that can be read once is no part of slabs, which each read it."""
        pipe = self.room.file("pipe")
        os.mkfifo(pipe)
        self.room.refused(1, f"%s: {pipe} is no plain file, and each slab reads the part anew", SLABS, pipe, "x")
        found = self.room.bash('"$1" --words <(cat "$2")', SLABS, BRACKET)
        same(found, self.room.run(SLABS, "--words", BRACKET), "words of a pipe")

    def test_wrong_words_are_refused(self):
        room = self.room
        for option in ("-p", "-l", "-n", "-r", "-u", "-j", "-S", "-P", "--depth"):
            room.refused(2, f"%s: {option} takes a value", SLABS, option)
        number, rules = "takes a whole number, 1 to 999999", "-r takes evenodd, nonzero or positive"
        with_png = "--depth, --mirror-x and --mirror-y go with --png"
        # in front of a part and an output
        options = {"-p 0": f"-p {number}", "-l 1000000": f"-l {number}", "-n ": f"-n {number}",
                   "-x": "there is no option -x",
                   "-r odd": rules, "-r nonzero;touch\tx": rules, "-u foot": "-u takes mm or inch",
                   "-S :;touch\tx": "-S takes machines, as host1,host2,:", "--png --depth 2": "--depth takes 8 or 1",
                   "--mirror-x": with_png, "--depth 8": with_png}
        for words, status, line in (*(([*words.split(" "), BRACKET, "x"], 2, line) for words, line in options.items()),
                                    (["-r", "odd", "--words", BRACKET], 2, rules), (["-", "x"], 2, "there is no option -"),
                                    ([BRACKET], 2, "it takes part.stl and layers.pbm, or --words and part.stl"),
                                    ([BRACKET, ""], 2, "the output has no name"),
                                    ([room.path, "x"], 1, f"{room.path} can't be read"),
                                    (["none.stl", "x"], 1, "none.stl can't be read"),
                                    (["no\n.stl", "x"], 1, "no\\x0a.stl can't be read")):
            room.refused(status, f"%s: {line}", SLABS, *words, cwd=room.path)
            for place in ("2>&-", "2> /dev/full"):
                room.refused(status, "", SLABS, *words, cwd=room.path, script=f'exec "$@" {place}')
        for word in ("--help", "--words"):
            line, script = "%s: No space left on device: standard output", 'exec env -u PYTHONUNBUFFERED "$@" > /dev/full'
            room.refused(1, line, SLABS, word, BRACKET, cwd=room.path, script=script)

    def test_parts_that_are_no_stl_are_refused(self):
        room = self.room
        empty = room.put("empty.stl", "solid\nendsolid\n")
        room.refused(1, "%s: the part has no facets", SLABS, empty, "x")
        room.refused(3, "stlslice: expected solid at byte 0", SLABS, os.path.join(ROOT, "README.md"), "x")
        binary = b"solid".ljust(80) + (2).to_bytes(4, "little") + bytes(100)
        line = "%s: the part is binary STL, and text is taken; convert it: assimp export {1} {0}"
        room.put("a b.stl", binary)
        for words in (["a b.stl", "x"], ["--words", "a b.stl"]):
            room.refused(3, line.format("text.stl", "'a b.stl'"), SLABS, *words, cwd=room.path)
        # the command of a refusal makes a file that isn't there yet, of whatever name the part is
        for name, free in (("text.stl", "text-2.stl"), ("text-2.stl", "text-3.stl")):
            room.put(name, binary)
            room.refused(3, line.format(free, name), SLABS, name, "x", cwd=room.path)

    def test_the_part_is_not_overwritten(self):
        keeps_the_part(self.room, [SLABS])

    def test_missing_tools_are_told(self):
        env, path, here = {"PATH": self.room.tools()}, alone("stlslice-slabs", self.room), self.room.path
        for words, line in (([], "stlslice is neither beside this command nor on PATH; -P says where it is"),
                            (["-S", ":"], "stlslice is not on PATH; -P says where it is, here and there"),
                            (["-P", "none"], "no program at none"), (["-P", here], f"no program at {here}"),
                            (["-S", ":", "-P", "none/at/all"], "no program at none/at/all"),
                            (["-P", PROGRAM], "GNU parallel is missing (Debian: apt-get install parallel)")):
            line = f"stlslice-slabs: {line}"
            self.room.refused(1, line, sys.executable, path, *words, BRACKET, "x", cwd=here, env=env)

    def test_another_program_is_refused(self):
        """One that answers in another way, such as with nine words."""
        for told in ("facets 12 box 0 0 0", "1 2 3 4 5 6 7 8 9", "hello\nfacets 12 box 0 0 0 1 1 1", ""):
            tool = self.room.put("other", f"#!/bin/sh\necho '{told}'\n", 0o755)
            self.room.refused(1, f"%s: {tool} is no stlslice", SLABS, "-P", tool, BRACKET, "x")

    def test_outputs_are_plain_files(self):
        """GNU parallel, which isn't run, has a stand-in."""
        env, (pipe, link, none) = {"PATH": self.room.tools()}, map(self.room.file, ("pipe", "link", "none"))
        os.symlink(shutil.which("true"), os.path.join(env["PATH"], "parallel"))
        os.mkfifo(pipe)
        os.symlink("elsewhere", link)
        for out, line in ((pipe, "is no plain file"), (link, "is no plain file"), (self.room.path, "is no plain file"),
                          (os.path.join(none, "out"), f"can't be written: no file can be made in {none}"),
                          (os.path.join(pipe, "out"), f"can't be written: no file can be made in {pipe}")):
            line = f"stlslice-slabs: {out} {line}"
            self.room.refused(1, line, sys.executable, SLABS, "-P", PROGRAM, BRACKET, out, env=env)


class Batches(Slabs):
    def test_a_batch_of_tasks_is_the_whole(self):
        slabs = self.room.file("slabs")
        os.mkdir(slabs)
        inches = ["--pitch", "6000", "--layer", "4000", "--rule", "nonzero", "--unit", "inch"]
        for words, wanted in ((SHORT, COARSE), (["-p", "6000", "-l", "4000", "-r", "nonzero", "-u", "inch"], inches)):
            for old in glob.glob(slabs + "/*"):
                os.remove(old)
            lines = self.lines(*words, "-n", "25", "--words", BRACKET)
            self.room.put("slabs/words", "".join(f"{line}\n" for line in lines))
            for number in reversed(range(len(lines))):
                env = self.room.with_env(SLURM_ARRAY_TASK_ID=str(number))
                same(self.room.out(BATCH, BRACKET, slabs, env=env), "", f"task {number}")
            names = [f"{k:05}.pbm" for k in range(len(lines))]
            same(sorted(os.listdir(slabs)), names + ["words"], "files")
            assert b"".join(bytes_of(slabs, name) for name in names) == self.whole(words=wanted), "bytes differ"

    def test_a_batch_system_runs_tasks(self):
        """By Slurm's sbatch if it is there: the slabs joined are the whole, also after one task was lost and ran again. Each
        task of an open part fails: sbatch ends with the program's status, and the logs have its line."""
        add_batch_system(self.room)
        here, slabs = self.room.file("a job"), self.room.file("a job", "its slabs")
        os.makedirs(slabs)
        part = self.room.put("a job/it's my part.stl", bytes_of(BRACKET))
        lines = self.lines(*SHORT, "-n", "25", "--words", part)
        same(len(lines), 4, "words")
        self.room.put("a job/its slabs/words", "".join(f"{line}\n" for line in lines))
        names = [f"{k:05}.pbm" for k in range(4)]

        def submitted(tasks):
            words = [f"--array={tasks}", BATCH, os.path.basename(part), os.path.basename(slabs)]
            return self.room.run("sbatch", "--wait", *words, cwd=here)

        def logs():
            return [bytes_of(log) for log in glob.glob(glob.escape(here) + "/stlslice-*.log")]

        ran = submitted("0-3")
        assert ran.status == 0 and ran.out.startswith("Submitted batch job "), f"sbatch: {ran}"
        same(sorted(os.listdir(slabs)), names + ["words"], "files")
        assert b"".join(bytes_of(slabs, name) for name in names) == self.whole(), "bytes differ"
        same(logs(), [b""] * 4, "logs of tasks that ended well")
        before = bytes_of(slabs, names[2])
        os.remove(os.path.join(slabs, names[2]))
        same(submitted("2").status, 0, "a task that runs again")
        assert bytes_of(slabs, names[2]) == before, "bytes differ"
        for old in (*glob.glob(glob.escape(here) + "/stlslice-*.log"), *(os.path.join(slabs, name) for name in names)):
            os.remove(old)
        self.room.put("a job/it's my part.stl", OPEN)
        same(submitted("0-3").status, 4, "status of sbatch with an open part")
        same(os.listdir(slabs), ["words"], "files of tasks that failed")
        same(logs(), [f"{OPEN_LINE}\n".encode()] * 4, "logs of tasks that failed")

    def test_a_task_that_fails_leaves_nothing(self):
        slabs = self.room.file("slabs")
        os.mkdir(slabs)
        self.room.put("slabs/words", "--pitch 50 --layer 50 --grid=1,1,1,0,0,0\n")
        words = [BATCH, self.room.put("open.stl", OPEN), slabs]
        for task, status, line in (("0", 4, OPEN_LINE), ("1", 2, f"%s: {slabs}/words has no line for task 1")):
            self.room.refused(status, line, *words, env=self.room.with_env(SLURM_ARRAY_TASK_ID=task))
            same(os.listdir(slabs), ["words"], "files")


# a stand-in's slab: the words of its grid, as long as the slab's images, which have 69 bytes each
IMAGES = 'layers=${9#--grid=20,20,}; printf "%-$((69 * ${layers%%,*}))s" "$*"'
GRID = "--pitch 50 --layer 100 --rule evenodd --unit mm --grid=20,20,{},0,0,{}"
GRIDS = (GRID.format(5, 0).ljust(69 * 5) + GRID.format(4, 500).ljust(69 * 4)).encode()


def server(room):
    """An ssh server of this test alone, and the words that reach it."""
    ssh = room.file("ssh")
    os.mkdir(ssh, 0o700)
    for name in ("host", "user"):
        subprocess.run(["ssh-keygen", "-q", "-t", "ed25519", "-N", "", "-f", os.path.join(ssh, name)], check=True)
    with socket.socket() as free:
        free.bind(("127.0.0.1", 0))
        port = free.getsockname()[1]
    settings = room.put("ssh/sshd_config", f"Port {port}\nListenAddress 127.0.0.1\nHostKey {ssh}/host\n"
                        f"AuthorizedKeysFile {ssh}/user.pub\nStrictModes no\nUsePAM no\nPasswordAuthentication no\n"
                        f"PermitRootLogin yes\nPidFile {ssh}/pid\n")
    words = ["ssh", "-F",
             room.put("ssh/ssh_config", f"Host one two\nHostName 127.0.0.1\nPort {port}\nIdentityFile {ssh}/user\n"
                                   f"IdentitiesOnly yes\nUserKnownHostsFile {ssh}/known\nStrictHostKeyChecking no\n"
                                   "LogLevel ERROR\nBatchMode yes\n")]
    with open(os.path.join(ssh, "log"), "wb") as log:
        child = subprocess.Popen(["/usr/sbin/sshd", "-D", "-e", "-f", settings], stderr=log)
    for _ in range(600):
        if room.run(*words, "one", "true").status == 0:
            return child, words
        time.sleep(0.1)
    child.terminate()
    child.wait()
    raise AssertionError(room.get("ssh/log").decode())


@needs("parallel")
class Parallel(Slabs):
    def setUp(self):
        super().setUp()
        if not self.room.run("parallel", "--version").out.startswith("GNU parallel"):
            skip("parallel isn't GNU parallel (Debian: parallel)")

    def test_slabs_are_the_whole(self):
        room = self.room
        part = room.put("it's my part.stl", bytes_of(BRACKET))
        out = room.put("all layers.pbm", "what was there before")
        for words in (["-n", "7", "-j", "3"], ["-n", "100"], ["-n", "30", "-P", PROGRAM]):
            words = [SLABS, *SHORT, *words, os.path.basename(part), os.path.basename(out)]
            same(room.out(*words, cwd=room.path), "", str(words))
            assert bytes_of(out) == self.whole(), f"{words}: bytes differ"
        same(room.files(), ["all layers.pbm", "it's my part.stl"], "files")

    def test_pngs_are_the_whole(self):
        out = self.room.file("layers.pngs")
        for pngs in (["--png"], ["--png", "--depth", "1", "--mirror-x"],
                     ["--depth", "8", "--mirror-y", "--mirror-x", "--png"]):
            same(self.room.out(SLABS, *SHORT, "-n", "20", "-j", "3", *pngs, BRACKET, out), "", str(pngs))
            assert bytes_of(out) == self.whole(words=[*COARSE, *pngs]), f"{pngs}: bytes differ"

    def by_one(self, start=""):
        """Words by which a stand-in gives nine slabs of a layer, without an output."""
        tool = self.slicer(f"{start}\nhead -c 69 /dev/zero")
        return [SLABS, "-l", "100", "-n", "1", "-j", "1", "-P", tool, BRACKET]

    def test_a_dash_is_standard_output(self):
        words = [*self.by_one(), "-"]
        same(self.room.out(*words, text=False, cwd=self.room.path), bytes(9 * 69), "images on standard output")
        for place, line in (("> /dev/full", "standard output can't be written: No space left on device"),
                            (">&-", "standard output is closed")):
            self.room.refused(1, f"%s: {line}", *words, script=f'exec "$@" {place}', cwd=self.room.path)
        same(self.room.files(), ["slicer"], "files")

    def test_slabs_are_not_moved_into_a_folder(self):
        """A folder, and a link to one, that appear at the output's name while the slabs are made."""
        for made in ("mkdir -p out", "mkdir -p other; ln -sfn other out"):
            ran = self.room.run(*self.by_one(f"cd {self.room.path}; {made}"), "out", cwd=self.room.path)
            same(ran, (1, "", "stlslice-slabs: out is no plain file\n"), made)
            same(os.listdir(self.room.file("out")), [], "files there")
            self.room.out("rm", "-rf", self.room.file("out"))

    def test_slabs_have_lines_of_their_own(self):
        """Where bash, mktemp and mv say theirs: an output that ends in a slash, a long name, no temporary folder."""
        words, tool, long, none = self.by_one(), self.room.file("slicer"), 300 * "n", self.room.file("none")
        for out, folder, line in (
                ("new/", self.room.path, "new/ is no plain file"),
                (long, self.room.path, f"{long} can't be written: File name too long"),
                ("out", none, f"the temporary folder {none} can't be used: No such file or directory"),
                ("out", tool, f"the temporary folder {tool} can't be used: Not a directory")):
            self.room.refused(1, f"%s: {line}", *words, out, cwd=self.room.path, env=self.room.with_env(TMPDIR=folder))

    @unittest.skipUnless(os.geteuid() == 0, "only root can give a file to another owner")
    def test_a_file_of_another_owner_is_told(self):
        """In a folder like /tmp, where nobody may move another's file."""
        room, words = self.room, [os.path.join(ROOT, "commands", "stlslice-slabs"), *self.by_one()[1:]]
        os.chmod(room.folder.name, 0o755)
        os.chmod(room.path, 0o1777)
        os.chown(room.put("out", "before"), 1, 1)
        os.chown(room.path, 1, 1)
        as_another = ["setpriv", "--reuid=65534", "--regid=65534", "--clear-groups"]
        if any(room.run(*as_another, "test", "-r", path).status for path in (BRACKET, words[0])):
            skip("the repository can't be read by another user here")
        ran = room.run(*as_another, *words, "out", cwd=room.path, env=room.with_env(HOME=room.path, TMPDIR="/tmp"))
        same(ran, (1, "", "stlslice-slabs: out can't be written: Operation not permitted\n"), "a file of another owner")
        same((sorted({*room.files()} - {".parallel"}), room.get("out")), (["out", "slicer"], b"before"), "files")

    def test_names_are_names(self):
        """Those that a shell, an option or a mark of GNU parallel could be taken for; a stand-in writes its slab's grid."""
        room, names, tool = self.room, {"slicer"}, self.slicer(IMAGES)
        for name in ("-f.pbm", "a b'c\"d", "{}{.}{#}", "$(touch x);`touch x`", "{=system('touch x')=}\n{}", "\\n \u00e4"):
            part, path = f"part {name}", f"program {name}"
            shutil.copy(BRACKET, room.file(part))
            shutil.copy(tool, room.file(path))
            told = room.out(SLABS, "-l", "100", "-n", "5", "-P", f"./{path}", f"./{part}", name, cwd=room.path)
            same(told, "", f"a run with {name!r}")
            same(room.get(name), GRIDS, f"the slabs with {name!r}")
            names |= {part, path, name}
        same(set(room.files()), names, "files")

    def test_folders_may_be_relative(self):
        """The temporary folder, and a folder of PATH, whose program isn't the one beside the command."""
        room, tool, path = self.room, self.slicer(IMAGES), alone("stlslice-slabs", self.room)
        os.makedirs(room.file("tools"))
        os.makedirs(room.file("tmp"))
        os.rename(tool, room.file("tools", "stlslice"))
        os.symlink(shutil.which("parallel"), room.file("tools", "parallel"))
        env = room.with_env(TMPDIR="tmp", PATH="tools:" + os.environ["PATH"])
        words = [sys.executable, path, "-l", "100", "-n", "5", "-j", "-1", BRACKET, "out"]
        same(room.out(*words, cwd=room.path, env=env), "", "run")
        same((room.get("out"), os.listdir(room.file("tmp"))), (GRIDS, []), "the slabs, and what is left")

    def test_one_line_is_told(self):
        """Of an open part, whose edge each slab finds, and if parallel fails itself."""
        part, out = self.room.put("open.stl", OPEN), self.room.file("out")
        self.room.refused(4, OPEN_LINE, SLABS, "-n", "5", "-j", "4", part, out)
        ran = self.room.run(SLABS, "-j", "none", BRACKET, out)
        assert ran.status == 1 and ran.fault.startswith("parallel: Error: "), ran
        assert ran.fault.endswith("\nstlslice-slabs: GNU parallel or ssh failed\n"), ran

    def test_a_failure_without_a_line_is_told(self):
        """Of a program that says nothing when it is asked for the box, and of one that says nothing of a slab."""
        words, here = [*self.by_one("case $* in *,500) exit 9;; esac"), "out"], self.room.path
        line = "%s: slab 6 of 9 ended with status 9 and no line: is the temporary folder {} full, or memory short?"
        self.room.refused(9, line.format(here), *words, cwd=here)
        tool = self.room.put("slicer", "#!/bin/sh\nexit 9\n", 0o755)
        self.room.refused(9, f"%s: {tool} --box ended with status 9 and no line", *words, cwd=here)
        same(self.room.files(), ["slicer"], "files")

    def stopped(self, parallel="", tool=PROGRAM, **env):
        """A signal ends a run, and a stand-in for GNU parallel or the slicer, whose number is in the file pid."""
        room, path = self.room, f"{self.room.tools()}:/usr/bin:/bin"
        room.put("tools/parallel", f"#!/bin/sh\n{parallel}\nexec sleep 600\n", 0o755)
        files, words = {*room.files(), "pid"}, [sys.executable, SLABS, "-P", tool, BRACKET, "out"]
        with subprocess.Popen(words, cwd=room.path, env=room.with_env(PATH=path, **env), stderr=subprocess.PIPE) as child:
            waited(lambda: os.path.exists(room.file("pid")) and room.get("pid").endswith(b"\n"))
            child.send_signal(signal.SIGTERM)
            same((child.wait(60), child.stderr.read()), (128 + signal.SIGTERM, b""), "status and faults")
        waited(lambda: has_ended(int(room.get("pid"))), 5)
        same({*room.files()}, files, "files")

    def test_a_parallel_that_does_not_end_is_killed(self):
        """One that ignores what would end it."""
        self.stopped(f"trap '' TERM\necho $$ > '{self.room.file('pid')}'")

    def test_a_signal_right_after_parallel_began_ends_it(self):
        self.room.put("sitecustomize.py", "import os, signal, subprocess\nmade = subprocess.Popen._execute_child\n"
                      "def execute(self, words, *more):\n    made(self, words, *more)\n    if words[0].endswith('parallel'):\n"
                      "        open('pid', 'w').write(f'{self.pid}\\n')\n        os.kill(os.getpid(), signal.SIGTERM)\n"
                      "subprocess.Popen._execute_child = execute\n")
        self.stopped(PYTHONPATH=self.room.path)

    def test_a_slicer_that_is_asked_for_the_box_ends_too(self):
        for more in ("", "exec >&-"):
            tool = self.room.put("slicer", f"#!/bin/sh\n{more}\necho $$ > pid\nexec sleep 600\n", 0o755)
            self.stopped(tool=tool)
            os.remove(self.room.file("pid"))

    def test_what_cannot_be_started_is_told(self):
        env = self.room.with_env(PATH=f"{self.room.tools()}:{os.environ['PATH']}")
        other = self.room.put("tools/parallel", "no program", 0o755)
        for tool, name in ((PROGRAM, "GNU parallel"), (other, other)):
            self.room.refused(1, f"%s: {name} can't be started: Exec format error", SLABS, "-P", tool, BRACKET, "out",
                              cwd=self.room.path, env=env)

    def test_settings_change_nothing(self):
        """Those of GNU parallel that a user may have."""
        os.mkdir(os.path.join(self.room.home, ".parallel"))
        self.room.put(os.path.join(self.room.home, ".parallel", "config"), "--line-buffer --tag\n")
        words = ["-l", "100", "-n", "5", "-P", self.slicer(IMAGES), BRACKET, self.room.file("out")]
        env = self.room.with_env(PARALLEL="--tag", PARALLEL_SHELL="/bin/false")
        same(self.room.out(SLABS, *words, env=env), "", "run")
        same(self.room.get("out"), GRIDS, "the slabs")

    def test_signals_end_all_slabs(self):
        """At once, and further signals leave nothing behind."""
        room = self.room
        tool = self.slicer(f"echo $$ >> '{room.file('pids')}'\nexec sleep 60")
        words = [SLABS, "-l", "100", "-n", "3", "-j", "3", "-P", tool, BRACKET, "out"]
        for number in (signal.SIGHUP, signal.SIGINT, signal.SIGTERM):
            room.put("pids", "")
            start = time.monotonic()
            child = subprocess.Popen(words, cwd=room.path, env=room.environment, stderr=subprocess.PIPE,
                                     preexec_fn=lambda: signal.signal(number, signal.SIG_DFL))
            while room.get("pids").count(b"\n") < 3:
                time.sleep(0.05)
            for _ in range(3):
                child.send_signal(number)
                time.sleep(0.05)
            same((child.wait(), child.stderr.read()), (128 + number, b""), f"signal {number}")
            child.stderr.close()
            assert time.monotonic() - start < 50, "the slabs went on"
            # a process that was killed may need a moment to end on a busy machine
            waited(lambda: all(map(has_ended, room.get("pids").decode().split())), 5)
            same(room.files(), ["pids", "slicer"], "files")

    def test_standard_error_may_be_closed_or_full(self):
        out = self.room.file("out")
        for place in ("2>&-", "2> /dev/full"):
            for body, status in ((IMAGES, 0), ("echo stlslice: out of memory >&2; exit 6", 6)):
                words = [SLABS, "-l", "100", "-n", "5", "-P", self.slicer(body), BRACKET, out]
                same(self.room.bash(f'exec "$@" {place}', *words), (status, "", ""), f"{body} {place}")
                same(bytes_of(out), GRIDS, "what was made")
            os.remove(out)

    def test_the_first_failure_halts(self):
        """Of a stand-in's slabs one fails, and those below and above it would take a minute."""
        out = self.room.put("out.pbm", "what was there before")
        fails = "*0,0,300) echo stlslice: out of memory >&2; exit 6;;"
        tool = self.slicer(f"case $* in {fails} *0,0,0|*0,0,600) sleep 60;; esac")
        start = time.monotonic()
        self.room.refused(6, "stlslice: out of memory", SLABS, "-l", "100", "-n", "3", "-j", "3", "-P", tool, BRACKET, out)
        assert time.monotonic() - start < 30, "the other slabs went on"
        same(bytes_of(out), b"what was there before", "the file that was there")
        same(self.room.files(), ["out.pbm", "slicer"], "files")

    @needs("ssh", "ssh-keygen", "rsync", "/usr/sbin/sshd")
    def test_slabs_over_ssh_are_the_whole(self):
        if os.geteuid() == 0 and not os.path.isdir("/run/sshd"):
            skip("/run/sshd is missing, which sshd wants")
        child, words = server(self.room)
        try:
            out = self.room.file("out.pbm")
            told = self.room.out(SLABS, *SHORT, "-n", "20", "-S", "2/one,1/two,:", "-P", PROGRAM, BRACKET, out,
                                 env=self.room.with_env(PARALLEL_SSH=" ".join(words)))
            same(told, "", "run")
            assert bytes_of(out) == self.whole(), "bytes differ"
            left = self.room.run(*words, "one", "ls -A | grep '^stlslice-.*[.]stl$'").out
            same(left, "", "files in the login folder there")
            accepted = self.room.get("ssh/log").count(b"Accepted publickey")
            assert accepted > 8, f"only {accepted} logins: nothing ran there"
        finally:
            child.terminate()
            child.wait()
