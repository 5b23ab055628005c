"""What the programs serve, where they are built, and how they are run: for the scripts of this
repository. `served.json` beside this file is the one place that says what is served."""
import json
import pathlib
import subprocess

ROOT = pathlib.Path(__file__).resolve().parent.parent
SERVED = json.loads((ROOT / "bench" / "served.json").read_text())


def program(name):
    """The path of a built program; it need not be there."""
    return ROOT / "crates" / name / "out" / name


def is_built(name):
    return program(name).exists()


def all_nodes(plan):
    """Every node of a plan, in document order, bodies included."""
    for node in plan["nodes"]:
        yield node
        yield from node.get("body", [])


def ops_of(plan):
    return {node["op"] for node in all_nodes(plan)}


def serves(name, plan):
    """Whether a program serves each op of a plan."""
    return ops_of(plan) <= set(SERVED[name]["ops"])


def runner_of(plan):
    """The program that runs a plan: flink_run where it serves its ops, else plain_run."""
    return "flink_run" if serves("flink_run", plan) else "plain_run"


def run(name, words, folder=None, limit=60):
    """Runs a built program; its status, and the bytes of its two outputs."""
    done = subprocess.run([str(program(name)), *map(str, words)], cwd=folder,
                          capture_output=True, timeout=limit)
    return done.returncode, done.stdout, done.stderr


def least_segments(plan_path, workers):
    """What `flink_run need` says of a plan's file."""
    status, out, err = run("flink_run", ["need", plan_path, workers])
    if status != 0:
        raise ValueError(err.decode().strip())
    return int(out.split()[1])
