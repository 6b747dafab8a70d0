#!/usr/bin/env python3
"""Builds the oracle into oracle/bin, offline and with one job.

    build.py            oracle (every place mended) and oracle-traced (the same with counters)
    build.py --all      also one oracle for each place left as published, one with none mended,
                        and two of them without overflow checks, as in a plain release build

DOCS_SRC says where docs/src is; a relative path counts from the repository's root.
"""

import json
import os
import pathlib
import shutil
import subprocess
import sys

HERE = pathlib.Path(__file__).resolve().parent
BIN = HERE / "bin"
TARGET = HERE / "target"
PLACES = [f"place-{number}" for number in range(1, 8)]
UNCHECKED = [
    "--config",
    "profile.release.overflow-checks=false",
    "--config",
    "profile.release.debug-assertions=false",
]


def docs_src():
    return (HERE.parent / os.environ.get("DOCS_SRC", "../shared/docs/src")).resolve()


def cargo(folder, unmended="", traced=False, extra=()):
    """Builds into a folder of target/; gives the program and the folders of generated text."""
    environment = dict(os.environ)
    environment["DOCS_SRC"] = str(docs_src())
    environment["UNMENDED"] = unmended
    environment["TRACED"] = "1" if traced else "0"
    environment["CARGO_TARGET_DIR"] = str(TARGET / folder)
    command = ["cargo", "build", "--release", "--offline", "--locked", "--jobs", "1"]
    command += ["--quiet", "--message-format", "json", *extra]
    done = subprocess.run(command, cwd=HERE, env=environment, stdout=subprocess.PIPE)
    messages = [json.loads(line) for line in done.stdout.splitlines()]
    for message in messages:
        if message["reason"] == "compiler-message":
            sys.stderr.write(message["message"]["rendered"] or "")
    if done.returncode != 0:
        sys.exit("the build failed")
    texts = {}
    for message in messages:
        if message["reason"] == "build-script-executed":
            package = message["package_id"].split("#")[0].rsplit("/", 1)[-1]
            texts[package] = pathlib.Path(message["out_dir"])
    return TARGET / folder / "release" / "oracle", texts


def install(name, **arguments):
    program, _ = cargo(**arguments)
    BIN.mkdir(exist_ok=True)
    shutil.copy2(program, BIN / name)


def build_main():
    install("oracle", folder="main")


def build_traced():
    install("oracle-traced", folder="traced", traced=True)


def build_variants():
    for place in PLACES:
        install(f"oracle-without-{place}", folder="variants", unmended=place)
    install("oracle-unmended", folder="variants", unmended="all")
    for place in ("place-5", "place-6"):
        install(f"oracle-without-{place}-unchecked", folder="unchecked", unmended=place, extra=UNCHECKED)


def main():
    build_main()
    build_traced()
    if "--all" in sys.argv[1:]:
        build_variants()
    print("built:", " ".join(sorted(path.name for path in BIN.iterdir())))


if __name__ == "__main__":
    main()
