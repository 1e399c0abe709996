"""Says which program and which library this package has: python -m luntrebis."""
import subprocess

from . import _dialogue, _library


def main() -> None:
    try:
        print(f"library: {_library.version()}: {_library.path()}")
    except OSError as fault:
        print(f"library: {fault}")
    try:
        imem = _dialogue.find_program()
        said = subprocess.run([imem, "--version"], capture_output=True, text=True, check=True).stdout.strip()
        print(f"program: {said}: {imem}")
    except (OSError, subprocess.CalledProcessError) as fault:
        print(f"program: {fault}")


main()
