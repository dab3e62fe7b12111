#!/usr/bin/env python3
"""Each worked row of a script or a schedule gives with the models of random_scripts.py what stands beside it; no program is run.

The rows were worked by hand, the models are written from the tables of docs/FORMATS.md. Rows of plans and of recordings have no
model here.
"""
import sys
from pathlib import Path

from random_scripts import SCHEDULES, SCRIPTS, outcome
from rows import Runner, faults_in

KINDS = {"script": SCRIPTS, "steps": SCHEDULES}


class Models(Runner):
    """Has the models read texts, in the place of a program."""

    def __init__(self):
        super().__init__("", "")

    def run(self, command, text):
        self.count += 1
        (status, output, said), _ = outcome(text, KINDS[command])
        return status, output.encode(), said.encode()


def modelled(rows):
    """Of each command that a file names, whether it has a model."""
    commands = [line.removeprefix("command ") for line in rows.read_text().splitlines() if line.startswith("command ")]
    return [command in KINDS for command in commands]


def main():
    models = Models()
    files = [rows for rows in sorted((Path(__file__).parent / "rows").glob("*.rows")) if any(modelled(rows))]
    faults = [f"{rows.name}: rows without a model stand among others, which would not be read" for rows in files if not all(modelled(rows))]
    faults += [fault for rows in files if all(modelled(rows)) for fault in faults_in(models, rows)]
    print("\n".join([*faults, f"model rows: {models.count} texts of {len(files)} files, {len(faults)} not as the models say"]))
    return 1 if faults or not files else 0


if __name__ == "__main__":
    sys.exit(main() if len(sys.argv) == 1 else "usage: checks/model_rows.py")
