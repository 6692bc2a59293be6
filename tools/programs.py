"""The two programs, ours and the reference: where they are, and the build of the reference."""
import os, subprocess, sys

ROOT = os.path.dirname(os.path.dirname(os.path.abspath(__file__)))
NAMES = "crpd", "replay"
OURS = {name: f"{ROOT}/crates/{name}/out/{name}" for name in NAMES}
REFERENCE = {name: f"{ROOT}/target/reference/{name}" for name in NAMES}


def make_ready():
    """Builds the reference where it is missing or older than its sources; ends with status 2 where ours is not built."""
    for name, path in OURS.items():
        if not os.access(path, os.X_OK):
            print(f"crates/{name}/out/{name} is missing: run ./{name} once, which builds it", file=sys.stderr)
            sys.exit(2)
    sources = f"{ROOT}/reference"
    newest = max(os.path.getmtime(f"{sources}/{f}") for f in os.listdir(sources))
    os.makedirs(f"{ROOT}/target/reference", exist_ok=True)
    for name, path in REFERENCE.items():
        if not os.path.exists(path) or os.path.getmtime(path) < newest:
            subprocess.run(["rustc", "-O", "--edition", "2021", f"{sources}/{name}.rs", "-o", path], check=True)
