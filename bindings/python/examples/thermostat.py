"""Steps a thermostat from Python: PYTHONPATH=FOLDER_OF_LUS python3 thermostat.py"""
import lus

TEXT = """
node thermostat(temperature: int; low: int; high: int) returns (heat: bool; minutes: int);
let
  heat = if temperature < low then true else if temperature > high then false else (false -> pre heat);
  minutes = if heat then (0 -> pre minutes) + 1 else 0;
tel
"""

try:
    lus.Program("node n(x: int) returns (y: int); let y = z; tel")
except lus.Refused as refusal:
    print(refusal.explanation, end="")

program = lus.Program(TEXT)
seat, = program.open("thermostat")
for temperature in (18, 20, 22, 23, 20, True, 17):
    try:
        outputs = seat.step(temperature=temperature, low=19, high=22)
        print(temperature, outputs["heat"], outputs["minutes"])
    except lus.NotDone as reply:
        print(temperature, reply)
journal = lus.close([seat])
print(len(journal), "entries, the last:", journal[len(journal) - 1])
print(journal.text("kitchen", ["panel"]), end="")
