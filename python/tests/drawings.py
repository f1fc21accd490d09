"""The script that makes the pictures of docs/pictures. `python3 drawings.py` stores the answers that it draws, so that
tests can draw them without the program. It takes matplotlib."""
import runpy

from conftest import STORED, TOP

MAKE = runpy.run_path(str(TOP / "docs" / "pictures" / "make.py"))
DRAWINGS = {drawing.name: drawing for drawing in MAKE["DRAWINGS"]}
picture_of = MAKE["picture_of"]
ask = MAKE["ask"]


if __name__ == "__main__":
    STORED.mkdir(exist_ok=True)
    for drawing in DRAWINGS.values():
        (STORED / f"{drawing.name}.answer").write_text(ask(drawing))
