#!/usr/bin/env python3
"""Holds the pictures that hal_drive wrote (HAL_DRIVE_PICTURES) against those that the camera has to give: by
tests/logical/definitions.py, which says them from the documents alone and is held against the traces of `play`.

usage: pictures.py FOLDER [FRAME ..]

FOLDER   files FRAME-STREAM-FORMAT-WxH; each has the settings of the template preview, but for the frames that are
         named, which have those of still

The status is 0 where each is right; the last line counts them.
"""
import hashlib
import sys
from pathlib import Path

sys.path.insert(0, str(Path(__file__).resolve().parents[3] / "tests" / "logical"))
from definitions import digest  # noqa: E402

PREVIEW = (2, 128, 10_000_000, 100)
STILL = (1, 200, 20_000_000, 100)
FORMATS = {"20": "raw16", "23": "yuv"}


def is_right(path, stills):
    frame, _, picture_format, size = path.name.split("-")
    settings = STILL if frame in stills else PREVIEW
    return hashlib.sha256(path.read_bytes()).hexdigest() == digest(
        f"{FORMATS[picture_format]}:{size}", settings, int(frame))


def main(words):
    if not words:
        sys.exit(__doc__)
    paths = sorted(Path(words[0]).rglob("*-*-*-*"))
    wrong = [path for path in paths if not is_right(path, words[1:])]
    for path in wrong:
        print(f"{path}: another picture")
    print(f"{len(paths)} pictures, {len(wrong)} wrong")
    sys.exit(1 if wrong or not paths else 0)


main(sys.argv[1:])
