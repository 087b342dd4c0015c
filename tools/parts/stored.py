"""What the Python tools share in keeping files that are written by a tool and never by hand."""

import pathlib

ROOT = pathlib.Path(__file__).resolve().parent.parent.parent


def differing(files):
    """Of these contents by path, the paths at which another content is stored, or none."""
    return sorted(path for path, content in files.items()
                  if not (ROOT / path).is_file() or (ROOT / path).read_bytes() != content)


def write(files, paths):
    for path in paths:
        (ROOT / path).parent.mkdir(parents=True, exist_ok=True)
        (ROOT / path).write_bytes(files[path])
        print(f"written: {path}")
