"""What tools/must-fail-above and tools/must-fail-each have in common: edits that a check must refuse, tried on copies.

An edit is tried in a folder of its own, on copies of the crates that it touches and of those between them and the one that is checked,
over what `rt check` keeps in crates/*/out of this checkout; of the other crates it takes what is built there. So a try proves again
what the edit changes, and little else.

What was refused is kept in ~/.cache/rattle-edits, by the checksum of all that the try read: the kit, this file and the tool, the edit,
HANDLES, and of the crate that was checked and of each below it the line of crates.txt and every file of src/, specs/ and proofs/. A
later run takes it from there, in any checkout on this machine. Nothing else is kept."""
import concurrent.futures, contextlib, fcntl, functools, hashlib, json, os, pathlib, pwd, re, shutil, subprocess, sys, tempfile, time

ROOT = pathlib.Path(__file__).resolve().parent.parent
PARTS = ("src", "specs", "proofs")
STORE = pathlib.Path(pwd.getpwuid(os.geteuid()).pw_dir, ".cache/rattle-edits")
ROOMS = pathlib.Path(tempfile.gettempdir(), f"rattle-edits-{os.geteuid()}")
# A check of one crate takes up to this much memory, in kB.
EACH = 2_500_000
# What is not used for so many days is kept no longer.
DAYS = 60


class Bad(Exception):
    """Why an edit cannot be tried."""


# ---- The repository

@functools.lru_cache(maxsize=None)
def lines():
    """Each crate's line of crates.txt."""
    listed = [line.partition("#")[0] for line in (ROOT / "crates.txt").read_text().splitlines()]
    return {line.split(":")[0].split()[0]: line.strip() for line in listed if ":" in line}


@functools.lru_cache(maxsize=None)
def below(crate):
    """The crates of the repository that a crate uses, and those that they use, lowest first."""
    found = []
    for name in lines()[crate].split(":")[1].split():
        if name in lines():
            found += [it for it in (*below(name), name) if it not in found]
    return tuple(found)


@functools.lru_cache(maxsize=None)
def sum_of(crate):
    """A sum of a crate's text, and of its line."""
    found = hashlib.sha256(lines()[crate].encode())
    for part in PARTS:
        for file in sorted((ROOT / "crates" / crate / part).rglob("*")):
            if file.is_file():
                found.update(repr((str(file.relative_to(ROOT)), file.read_bytes())).encode())
    return found.hexdigest()


@functools.lru_cache(maxsize=None)
def tried_by():
    """What every try reads: the kit, the tool, HANDLES."""
    kit = subprocess.run(["rt", "version"], capture_output=True, text=True, check=True).stdout
    handles = ROOT / "HANDLES"
    return [kit, *[pathlib.Path(it).read_bytes() for it in (__file__, sys.argv[0])], handles.read_bytes() if handles.exists() else b""]


# ---- Edits

class Edit:
    """An edit: the crate that it stands in, and the one that must refuse it."""

    def __init__(self, path):
        self.path = path
        self.crate, self.label = path.parts[path.parts.index("crates") + 1], path.stem
        self.text = path.read_text(encoding="utf-8")
        said = dict(re.findall(r"^(by|at): (.*)$", self.text, re.M))
        self.by, self.at = said.get("by", self.crate), said.get("at", "")
        self.touched = {self.crate, *re.findall(r"^in: (.*)$", self.text, re.M)}

    def key(self):
        read = [self.crate, self.path.name, self.text, *[(it, sum_of(it)) for it in (*below(self.by), self.by)]]
        return hashlib.sha256(repr((tried_by(), read)).encode()).hexdigest()

    def make(self, crates):
        """Makes the edit in a folder of crates."""
        crate, file, old, pairs = self.crate, "", "", 0
        for line in self.text.split("\n"):
            if line.startswith("in: "):
                crate = line[4:]
            elif line.startswith("file: "):
                file = crates / crate / line[6:]
                if not file.is_file():
                    raise Bad(f"there is no file {crate}/{line[6:]}")
            elif line.startswith("old: "):
                old = line[5:]
            elif line.startswith("new:"):
                text = file.read_text(encoding="utf-8")
                if not old or text.count(old) != 1:
                    raise Bad(f"an 'old:' text stands {text.count(old)} times and not once in {file.relative_to(crates)}: {old}")
                file.write_text(text.replace(old, re.sub(r"\A ", "", line[4:])), encoding="utf-8")
                old, pairs = "", pairs + 1
        if not pairs:
            raise Bad("it has no 'old:' and 'new:' pair")


# ---- What is kept

def known(edit):
    """What an earlier try of the same said, or None."""
    with contextlib.suppress(OSError, ValueError, KeyError):
        file = STORE / edit.key()
        if STORE.stat().st_uid == os.geteuid():
            said = json.loads(file.read_text())["said"]
            os.utime(file)
            return said
    return None


def keep(edit, said, key):
    """Keeps what a try said that began with this key, unless a file has changed since."""
    sum_of.cache_clear()
    with contextlib.suppress(OSError):
        if edit.key() != key:
            return
        STORE.mkdir(mode=0o700, parents=True, exist_ok=True)
        part = STORE / f"part-{os.getpid()}-{edit.crate}-{edit.label}"
        part.write_text(json.dumps({"edit": f"{edit.crate}/{edit.label}", "said": said}))
        part.replace(STORE / key)


def drop_old():
    with contextlib.suppress(OSError):
        for file in STORE.iterdir():
            if file.is_file() and file.stat().st_mtime < time.time() - DAYS * 86400:
                file.unlink()


# ---- Tries

def at_once():
    """How many checks run side by side."""
    if os.environ.get("JOBS"):
        return int(os.environ["JOBS"])
    free = int(re.search(r"MemAvailable:\s+(\d+)", pathlib.Path("/proc/meminfo").read_text())[1])
    return max(1, min(len(os.sched_getaffinity(0)), free // EACH))


def proved(crates):
    """Those of the crates that `rt check` proves here: what it keeps is what the tries begin with."""
    crates = sorted(crates)
    if len(crates) > 8:
        ran = subprocess.run(["rt", "all", "check", "--jobs", str(at_once())], cwd=ROOT, capture_output=True, text=True)
        # (where a crate does not compile it checks none)
        if "== summary" in ran.stdout:
            return {it for it in crates if re.search(rf"^{it}: ok$", ran.stdout, re.M)}
    return {it for it in crates if subprocess.run(["rt", "check"], cwd=ROOT / "crates" / it, capture_output=True).returncode == 0}


def link(one, other):
    try:
        os.link(one, other)
    except OSError:
        shutil.copy2(one, other)


def link_proved(one, other):
    """A check puts another file in the place of such a file, and writes into the rest."""
    (link if one.endswith(".oantt") else shutil.copy2)(one, other)


@contextlib.contextmanager
def room():
    """A folder of this try's own: the first that no other try is in, since rt notes where checks were made."""
    ROOMS.mkdir(mode=0o700, exist_ok=True)
    for number in range(1000):
        with open(ROOMS / f"{number}.lock", "w") as lock:
            try:
                fcntl.flock(lock, fcntl.LOCK_EX | fcntl.LOCK_NB)
            except BlockingIOError:
                continue
            folder = ROOMS / str(number)
            shutil.rmtree(folder, ignore_errors=True)
            folder.mkdir()
            try:
                yield folder
            finally:
                shutil.rmtree(folder, ignore_errors=True)
            return


def tried(edit):
    """The exit status of a check with the edit, and what it said."""
    with room() as folder:
        crates = (*below(edit.by), edit.by)
        (folder / "crates.txt").write_text("".join(lines()[it] + "\n" for it in crates))
        if (ROOT / "HANDLES").exists():
            shutil.copyfile(ROOT / "HANDLES", folder / "HANDLES")
        for it in edit.touched - {*crates}:
            raise Bad(f"it edits {it}, which {edit.by} does not use")
        for it in crates:
            at, to = ROOT / "crates" / it, folder / "crates" / it
            for part in PARTS:
                if (at / part).is_dir():
                    shutil.copytree(at / part, to / part)
            is_touched = bool(edit.touched & {it, *below(it)})
            kept = "out/incremental" if is_touched else "out/rlib"
            if (at / kept).is_dir():
                shutil.copytree(at / kept, to / kept, copy_function=link_proved if is_touched else link)
        edit.make(folder / "crates")
        for _ in range(2):
            ran = subprocess.run(["rt", "check", "--jobs", "1"], cwd=folder / "crates" / edit.by, stdin=subprocess.DEVNULL, stdout=subprocess.PIPE, stderr=subprocess.STDOUT, text=True, errors="replace")
            # (any other status is a check that was killed, say)
            if ran.returncode in (0, 1):
                break
        return ran.returncode, ran.stdout


def run(edits, kind, judge):
    """Tries the edits, and says of each what `judge` says of its check: a line, and whether it is refused. Whether all are."""
    anew = "--anew" in sys.argv
    said = {it: None if anew else known(it) for it in edits}
    new = [it for it in edits if said[it] is None]
    keys = {it: it.key() for it in new}
    print(f"{kind}: {len(edits) - len(new)} of {len(edits)} edits were refused earlier, with the same files; {len(new)} to try", flush=True)
    ready = proved({it.by for it in new}) if new else set()

    def one(edit):
        label = f"{kind} {edit.crate}/{edit.label}"
        if edit.by not in ready:
            return f"{label}: NOT TRIED: {edit.by} is not proved without it", False
        log = ROOT / "crates" / edit.crate / "out" / kind / f"{edit.label}.log"
        try:
            status, text = tried(edit)
            log.parent.mkdir(parents=True, exist_ok=True)
            log.write_text(text)
            line, is_refused = judge(edit, status, text)
        except (Bad, OSError) as why:
            line, is_refused = f"BAD EDIT: {why}", False
        return f"{label}: {line}" + ("" if is_refused else f" ({log.relative_to(ROOT)})"), is_refused

    # (those that prove the most again begin first)
    new.sort(key=lambda it: -sum(bool(it.touched & {c, *below(c)}) for c in (*below(it.by), it.by)))
    is_well = True
    with concurrent.futures.ThreadPoolExecutor(at_once()) as pool:
        for edit, (line, is_refused) in zip(new, pool.map(one, new)):
            print(line, flush=True)
            is_well = is_well and is_refused
            if is_refused:
                keep(edit, line, keys[edit])
                said[edit] = line
    drop_old()
    return is_well, said
