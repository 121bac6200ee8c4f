"""The crates of the workspace, and the words by which the prover of the kit is called for one of them."""

import pathlib
import shutil

TOP = pathlib.Path(__file__).resolve().parent.parent


def kit():
    """The folder of the kit whose rt is on the path."""
    return pathlib.Path(shutil.which("rt")).resolve().parent.parent


def lines():
    """The lines of crates.txt: a crate with what it is, if that is said, and the libraries that it names."""
    for line in (TOP / "crates.txt").read_text(encoding="ascii").splitlines():
        if ":" in line and not line.startswith("#"):
            name, libraries = line.split(":")
            yield name.split(), libraries.split()


def uses():
    """The libraries that each crate names: the repository's and the kit's."""
    return {name[0]: libraries for name, libraries in lines()}


def is_archive(crate):
    """Whether a crate is a static library."""
    return any(name == [crate, "staticlib"] for name, _ in lines())


def is_program(crate):
    return (TOP / f"crates/{crate}/src/main.rt").exists()


def below(crate, named):
    """The repository's libraries that a crate stands on, lowest first."""
    found = {}
    for library in named[crate]:
        if library in named:
            found.update(dict.fromkeys([*below(library, named), library]))
    return list(found)


def words(crate, named, folder):
    """The words of `rattle` for a crate. `folder` answers where a library of the repository is built."""
    found = ["--crate-name", crate, "src/main.rt" if is_program(crate) else "src/lib.rt", "-L", f"dependency={kit()}/rlibs"]
    for library in ("std", *named[crate]):
        place = folder(library) if library in named else kit() / "rlibs"
        found += ["--extern", f"{library}={place}/{library}.rlib"]
    for library in below(crate, named):
        found += ["-L", f"dependency={folder(library)}"]
    found += ["--crate-type", "staticlib"] if is_archive(crate) else []
    return [*found, "--antt-project", str(kit() / "rattle/logic/antt-project.json")]
