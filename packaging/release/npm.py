"""The package for JavaScript, as `npm pack` would lay it out."""

import json
import shutil

from release.files import settle, write_tarball, write_text

FOLDER = "bindings/js"


def make(source, built, parts):
    """Packs pidtab-VERSION.tgz."""
    stage = parts.parent / "npm"
    described = json.loads(source.read(f"{FOLDER}/package.json"))
    wanted = ("package.json", "README.md", *described["files"])
    for name in source.below(FOLDER):
        if name.startswith(wanted):
            (stage / name).parent.mkdir(parents=True, exist_ok=True)
            shutil.copyfile(source.folder / FOLDER / name, stage / name)
    shutil.copyfile(built.module, stage / "pidtab.wasm")
    write_text(stage / "LICENSE", source.read("LICENSE"))
    write_text(stage / "GATE.txt", built.gate)
    settle(stage, source.time)
    write_tarball(parts / f"pidtab-{source.version}.tgz", stage, "package", source.time)
