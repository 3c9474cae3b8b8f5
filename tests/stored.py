"""The files that a program is run on in the gate: written, or compared with what would be written (`--check`)."""

import sys


def store(folder, files):
    """Writes the files, or with `--check` compares them: the exit status."""
    if "--check" in sys.argv[1:]:
        return int(any((folder / name).read_bytes() != data for name, data in files.items()))
    for name, data in files.items():
        (folder / name).write_bytes(data)
        print(f"{folder.name}/{name}: {data.count(10)} lines, {len(data)} bytes")
    return 0
