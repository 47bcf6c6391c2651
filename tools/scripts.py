"""What the checks share: any of the project's scripts as a module, files as the trials make them, their words, and the broken rules that they must find."""
import argparse
import importlib.machinery
import importlib.util
import os
import subprocess

ROOT = os.path.dirname(os.path.dirname(os.path.abspath(__file__)))


def script(*names):
    """The script at that place below the root, as a module."""
    loader = importlib.machinery.SourceFileLoader("_".join(names), os.path.join(ROOT, *names))
    module = importlib.util.module_from_spec(importlib.util.spec_from_loader(loader.name, loader))
    loader.exec_module(module)
    return module


def trials_files(count, seed, folder):
    """So many files as the trials make them."""
    trials = script("trials", "run")
    trials.build()
    trials.make(seed, 0, count - 1, folder)
    return [os.path.join(folder, str(index)) for index in range(count)]


def words_of_check(told, count, *flags):
    """The words of a check that compares a program with the second one, which is built: how many made-up cases, by default so many, their seed, and flags."""
    words = argparse.ArgumentParser(description=told, formatter_class=argparse.RawDescriptionHelpFormatter)
    words.add_argument("count", nargs="?", type=int, default=count)
    words.add_argument("seed", nargs="?", type=int, default=1)
    words.add_argument("--program")
    words.add_argument("--jobs", type=int, default=os.cpu_count())
    for flag in flags:
        words.add_argument(flag, action="store_true")
    given = words.parse_args()
    subprocess.run(["make", "-s", "-C", os.path.join(ROOT, "second")], check=True)
    return given


def broken_rules(check, count, pool, what="file"):
    """Counts for each broken rule of a check, by its edits, how many cases show it, and prints that; gives the number of rules and what is wrong."""
    rules = list(script("trials", "breaks").read_breaks(os.path.join(ROOT, check, "breaks.txt")))
    unseen = []
    for (title, _), found in zip(rules, pool.map(lambda rule: count(rule[1]), rules)):
        print(f"{found:6} {title}", flush=True)
        unseen += [f"no {what} shows the broken rule: {title}"] * (not found)
    return len(rules), unseen if rules else ["there is no broken rule"]
