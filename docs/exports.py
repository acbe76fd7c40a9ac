"""What other crates can import: each public name, with all its paths."""

from contracts import items, reexported


class Exports:
    """The names that crates offer, by their sources."""

    def __init__(self, crates):
        self.sources = {"::".join((crate, *it.name)): (crate, it) for crate, sources in crates.items() for it in sources}
        self.paths = {}
        for crate in crates:
            self.add(crate, crate)

    def add(self, at, shown):
        """Adds the names of a module, which code writes as those of `shown`."""
        for here, target in self.offered(at):
            path = f"{shown}::{here}"
            if target in self.sources:
                self.add(target, path)
            else:
                self.paths.setdefault(self.described(target), []).append(path)

    def offered(self, at):
        """The public names of a module, each with the path of what it stands for."""
        crate, source = self.sources[at]
        yield from ((it.name(), f"{at}::{it.name()}") for it in items(source.text) if it.is_public and it.name())
        for path, names in reexported(source.text):
            start = path.partition("::")[0]
            path = path.replace("crate::", f"{crate}::", 1) if start == "crate" else path
            path = path if start == "crate" or start in self.sources else f"{at}::{path}"
            yield from ((here, self.followed(f"{path}::{there}")) for there, here in names)

    def followed(self, path):
        """The path under which a name or a module is declared."""
        at, _, name = path.rpartition("::")
        if path in self.sources or at not in self.sources:
            return path
        declared = {it.name() for it in items(self.sources[at][1].text)}
        return path if name in declared else dict(self.offered(at)).get(name, path)

    def described(self, path):
        """A name under the public module whose page describes it."""
        at, _, name = path.rpartition("::")
        if at not in self.sources:
            return path
        crate, source = self.sources[at]
        return "::".join((crate, *source.module, name))

    def imports(self, described):
        """The line that imports a name, and its other paths, those of its own crate first."""
        crate = described.partition("::")[0]
        paths = sorted(self.paths.get(described, []), key=lambda it: (not it.startswith(f"{crate}::"), it.count("::"), it))
        return [f"use {it};" if it == paths[0] else f"// or {it}" for it in paths]
