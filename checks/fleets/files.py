"""The form of the files for systemd and Kubernetes, and a batch of shards whose runs are killed."""
from __future__ import annotations

import importlib.util
import os
import shutil
import subprocess
import sys
from collections.abc import Callable
from pathlib import Path
from typing import Any

from trials import FLEET

Expect = Callable[[str, bool], None]
# Writes half of a shard's output and dies where it is run for the first time.
DYING_LUS = """#!/bin/sh
if mkdir "$2.begun" 2> /dev/null; then
    "{lus}" "$@" | head -c 200
    kill -9 $$
fi
exec "{lus}" "$@"
"""


def look(lus: Path, folder: Path, expect: Expect) -> None:
    """Checks each kind of file for which a program is installed, and says what is skipped."""
    if shutil.which("systemd-analyze"):
        unit(expect)
    else:
        print("skipped: the unit of systemd, since systemd-analyze isn't installed")
    if importlib.util.find_spec("yaml"):
        manifests(expect)
    else:
        print("skipped: the manifests of Kubernetes, since python3-yaml isn't installed")
    if shutil.which("parallel"):
        batch(lus, folder, expect)
    else:
        print("skipped: the batch of shards, since parallel isn't installed")


def unit(expect: Expect) -> None:
    done = subprocess.run(["systemd-analyze", "verify", FLEET / "lus-worker@.service"], capture_output=True, text=True)
    expect(f"systemd takes the unit: {done.stdout}{done.stderr}", done.returncode == 0)


def manifests(expect: Expect) -> None:
    """The stateful set has what Kubernetes wants of one, and its references lead somewhere."""
    import yaml
    found: dict[str, Any] = {each["kind"]: each for each in yaml.safe_load_all((FLEET / "kubernetes.yaml").read_text())}
    expect("each manifest has its version and name", all(each["apiVersion"] and each["metadata"]["name"] for each in found.values()))
    spec = found["StatefulSet"]["spec"]
    pod = spec["template"]["spec"]
    labels = spec["template"]["metadata"]["labels"]
    expect("the set selects its own pods", spec["selector"]["matchLabels"] == labels == found["Service"]["spec"]["selector"])
    expect("its service is there", spec["serviceName"] == found["Service"]["metadata"]["name"])
    expect("its volume is there", {volume["configMap"]["name"] for volume in pod["volumes"]} == {found["ConfigMap"]["metadata"]["name"]})
    for container in pod["containers"]:
        expect("a container has name, image and command", all(container[word] for word in ("name", "image", "command")))
        mounted = {mount["name"] for mount in container["volumeMounts"]}
        expect("what is mounted is a volume", mounted <= {volume["name"] for volume in pod["volumes"]})
        expect("it calls a worker that is there", (FLEET / Path(container["command"][1]).name).is_file())


def batch(lus: Path, folder: Path, expect: Expect) -> None:
    """Each run is killed once behind a part of its output; the same command then runs what is missing."""
    top = FLEET.parent.parent
    shards = folder / "shards"
    shards.mkdir()
    subprocess.run([sys.executable, top / "examples/fleet/write", "40", "4", shards], check=True)
    dying = folder / "dying_lus"
    dying.write_text(DYING_LUS.format(lus=lus))
    dying.chmod(0o755)
    command = [str(FLEET / "batches/parallel_batch"), str(top / "examples/thermostat.lus"), str(shards), "-j", "2", "--retries", "1"]
    states = []
    for _ in range(2):
        status = subprocess.run(command, env={**os.environ, "LUS": str(dying)}, capture_output=True).returncode
        states.append((status == 0, len(list(shards.glob("*.txt")))))
    expect(f"a batch says what is missing, and the same command runs it: {states}", states == [(False, 0), (True, 4)])
    (folder / "journals").write_text("".join(path.read_text() for path in shards.glob("*.txt")))
    done = subprocess.run([sys.executable, top / "examples/fleet/check", "40", folder / "journals"], capture_output=True, text=True)
    expect(f"the journals of a batch are right: {done.stdout}", done.returncode == 0)
