"""The crates of the repository, what proving one makes, and the toolchain that README.md names."""
import functools, os, re, subprocess

TOP = os.path.dirname(os.path.dirname(os.path.dirname(os.path.realpath(__file__))))


class Crate:
    """A crate of crates.txt, and what proving it makes: the program, or the library for the crates above. The
    toolchain makes neither before all is proved."""

    def __init__(self, name):
        self.name, self.folder = name, f"{TOP}/crates/{name}"
        self.is_program = os.path.exists(f"{self.folder}/src/main.rt")
        self.root = f"{self.folder}/src/{'main' if self.is_program else 'lib'}.rt"
        self.made = f"{self.folder}/out/{name}" if self.is_program else f"{self.folder}/out/rlib/{name}.rlib"

    def is_as_new_as(self, moment):
        return os.path.exists(self.made) and os.stat(self.made).st_mtime_ns >= moment


@functools.cache
def uses():
    """Returns the names of the crates of crates.txt, each with those of the libraries that it names."""
    with open(f"{TOP}/crates.txt") as file:
        rows = [row.partition("#")[0].partition(":") for row in file]
    return {head.split()[0]: deps.split() for head, _, deps in rows if head.strip()}


def crates():
    """Returns the program and the crates that it stands on, by crates.txt, each behind those that it stands on. Crates
    of tests alone make no library; `rt ci` proves them."""

    @functools.cache
    def below(name):
        return {name}.union(*[below(dep) for dep in uses()[name] if dep in uses()])

    program = next(name for name in uses() if Crate(name).is_program)
    return [Crate(name) for name in sorted(below(program), key=lambda name: len(below(name)))]


def newest_source():
    """Returns the time of the latest change of a source, or of a folder of sources."""
    paths = [f"{TOP}/crates.txt"]
    for name in os.listdir(f"{TOP}/crates"):
        for part in ("src", "specs", "proofs"):
            for folder, _, files in os.walk(f"{TOP}/crates/{name}/{part}"):
                paths += [folder, *[f"{folder}/{file}" for file in files]]
    return max(os.lstat(path).st_mtime_ns for path in paths)


def stand(listed):
    """Returns whether what proving these crates makes is there, and as new as every source."""
    moment = newest_source()
    return all(crate.is_as_new_as(moment) for crate in listed)


def wanted_toolchain():
    """Returns the line of the toolchain that README.md names."""
    with open(f"{TOP}/README.md") as file:
        named = re.search("`rt version` prints `([^`]*)`", file.read())
    return named[1] if named else "one that README.md names"


def toolchain_fault():
    """Returns what is wrong with the toolchain that is found, or None where it is the one that README.md names."""
    wanted = wanted_toolchain()
    try:
        found = subprocess.run(["rt", "version"], stdout=subprocess.PIPE, text=True).stdout.strip()
    except OSError:
        found = "none, as there is no rt in PATH"
    return None if found == wanted else f"the toolchain that is wanted is {wanted}; found: {found}"
