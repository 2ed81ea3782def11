"""A pool of workers steps live instances, whose journals are written line by line, and one instance goes on where its journal ends:
PYTHONPATH=FOLDER_OF_LUS python3 live.py"""
import concurrent.futures
import io

import lus

TEXT = "node door(passed: bool) returns (count: int); let count = (0 -> pre count) + (if passed then 1 else 0); tel"
DOORS, CALLS = 6, 100

program = lus.Program(TEXT)


class Door:
    """An instance with its journal, which a file would be."""

    def __init__(self, name):
        self.name, self.live, self.journal = name, program.open_live("door"), io.StringIO()
        self.journal.write(f"instance {name} door\n")

    def work(self):
        """One worker at a time has the door."""
        for k in range(CALLS):
            self.live.step(passed=k % 2 == 0)
            self.journal.write(self.live.line("worker"))


doors = [Door(f"door{number}") for number in range(DOORS)]
with concurrent.futures.ThreadPoolExecutor(max_workers=3) as pool:
    list(pool.map(Door.work, doors))
print([door.live.count() for door in doors])

# the service ended: another instance goes on where the journal ends
lines = doors[0].journal.getvalue().splitlines(keepends=True)[1:]
again = program.open_live("door")
for line in lines:
    again.replay(line)
print(again.count(), again.step(passed=True), again.line("worker"), end="")
for line in (lines[0], "102 worker step(true) -> (7)\n", "102 worker step(true) -> (52)\n"):
    try:
        again.replay(line)
        print(again.count(), "entries")
    except lus.Error as error:
        print(error)
