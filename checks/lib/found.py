"""What was found last of wrong bodies, as a file of the tree keeps it."""
import re
import subprocess


def git(tree, *words):
    """What a command of git prints of a tree."""
    return subprocess.run(["git", *words], cwd=tree, check=True, capture_output=True, text=True).stdout


def keep(tree, folder, by, found):
    """Writes into a folder of wrong bodies what a script found of some, and at which commit; of a body that is gone, nothing is left
    there."""
    file, known = folder / "found", {}
    if file.is_file():
        known = dict(line.split(" ", 1) for line in file.read_text().splitlines() if not line.startswith("#"))
    is_changed = bool(git(tree, "status", "--porcelain", "--untracked-files=no", "--", "crates", "crates.txt"))
    commit = git(tree, "rev-parse", "--short=12", "HEAD").strip() + "+" * is_changed
    for name, said in found.items():
        # (of the reason the goal or the message, without its place, which moves)
        said = re.sub(r"(?<=: )(?:note: )?\S+:\d+:\d+: ", "", said)
        known[name] = f"{commit} {said[:160].strip()}"
    head = f"# What {by} found last of each wrong body, and at which commit (+: with changes).\n"
    file.write_text(head + "".join(f"{name} {known[name]}\n" for name in sorted(known) if (folder / f"{name}.edit").is_file()))
