"""Where the Rattle toolchain is, what its module rtlib knows of crates.txt, and a toolchain of which one command is another."""
import importlib.machinery
import importlib.util
import os
import signal
import stat
import subprocess
import sys

ROOT = os.path.dirname(os.path.dirname(os.path.realpath(__file__)))


def found():
    """Returns the toolchain's folder, and its module rtlib."""
    page = subprocess.run(["rt", "doc"], capture_output=True, text=True, check=True)
    kit = os.path.dirname(page.stdout.strip())
    sys.dont_write_bytecode = True
    loader = importlib.machinery.SourceFileLoader("rtlib", f"{kit}/bin/rtlib.py")
    module = importlib.util.module_from_spec(importlib.util.spec_from_loader("rtlib", loader))
    sys.modules["rtlib"] = module
    loader.exec_module(module)
    return kit, module


# Who is told to stop ends in order: what it started is ended, and its temporary folders are removed.
signal.signal(signal.SIGTERM, lambda *_: sys.exit(143))
KIT, rtlib = found()
# What every program is linked with.
SYSTEM = [f"{KIT}/c/libos_c.a", f"{KIT}/c/liblibc_c.a"]


def with_other(folder, **commands):
    """Makes in a folder a toolchain that is the kit's, but for these commands, each of which is a text for the shell; _ stands for a dot."""
    os.makedirs(f"{folder}/bin")
    os.symlink(f"{KIT}/toolchain/lib", f"{folder}/lib")
    texts = {name.replace("_", "."): text for name, text in commands.items()}
    for name in os.listdir(f"{KIT}/toolchain/bin"):
        if name not in texts:
            os.symlink(f"{KIT}/toolchain/bin/{name}", f"{folder}/bin/{name}")
    for name, text in texts.items():
        with open(f"{folder}/bin/{name}", "w", encoding="utf-8") as file:
            file.write(text)
        os.chmod(f"{folder}/bin/{name}", stat.S_IRWXU)
    return folder
