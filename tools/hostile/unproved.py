"""What stands in for ./build where a copy of the repository is tried: programs that are there, and evidence of them that no kit gave."""
import pathlib
import shutil
import subprocess

# a folder with what a kit would say of the programs
TOLD = {"version": "a stand-in that nothing proved\n", "log": "", "lvdc": "logic=proved foreign=none sum=0\n", "lvdc-worker": ""}


def stand_in(copy: pathlib.Path, program: pathlib.Path, worker: pathlib.Path, told: pathlib.Path) -> None:
    """Puts the programs into a copy and has it write its evidence of them; what the kit would have said is left in a new folder."""
    for name, path in (("lvdc", program), ("lvdc-worker", worker)):
        shutil.copy(path, copy / name)
    told.mkdir()
    for name, text in TOLD.items():
        (told / name).write_text(text)
    subprocess.run([copy / "tools/evidence", "--write", told], check=True)
