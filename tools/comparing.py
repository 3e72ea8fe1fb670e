"""What the comparisons share: the independent program, drawlist on many files, the saving of a first difference."""
import importlib.machinery
import importlib.util
import os
import re
import subprocess
import tempfile

TOOLS = os.path.dirname(os.path.abspath(__file__))
ROOT = os.path.dirname(TOOLS)


def module(name):
    """A program of tools/ as a module: its name has no ending."""
    loader = importlib.machinery.SourceFileLoader(name, os.path.join(TOOLS, name))
    spec = importlib.util.spec_from_loader(name, loader)
    loaded = importlib.util.module_from_spec(spec)
    loader.exec_module(loaded)
    return loaded


def printed(files):
    """What one process of drawlist prints of each of the files: a list, or a refusal, starts with its own word."""
    with tempfile.TemporaryDirectory() as folder:
        paths = [os.path.join(folder, "%d.block" % i) for i in range(len(files))]
        for path, data in zip(paths, files):
            with open(path, "wb") as f:
                f.write(data)
        out = subprocess.run([os.path.join(ROOT, "drawlist")] + paths, stdout=subprocess.PIPE, check=True).stdout
    lists = re.split(rb"(?m)^(?=sites |refused )", out)[1:]
    return lists + [b""] * (len(files) - len(lists))


def save(named):
    """A difference, as files of these names and bytes."""
    folder = os.path.join(ROOT, "target", "difference")
    os.makedirs(folder, exist_ok=True)
    for name, data in named.items():
        with open(os.path.join(folder, name), "wb") as f:
            f.write(data)
    print("a difference is saved in target/difference: " + ", ".join(named))


def save_lists(data, wanted, got, **others):
    """A file that is listed otherwise than it must be."""
    save({"file.block": data, "independent.list": wanted, "drawlist.list": got,
          **{"%s.list" % name: text for name, text in others.items()}})


def ended(passed, failed):
    """The last line of a comparison; its exit status."""
    print("%d passed, %d failed" % (passed, failed))
    return 1 if failed or not passed else 0
