"""The proved calls against MiniVisor's module, measured: prints ratios and writes docs/BENCHMARK.md and docs/benchmark.svg.

usage: tools/bench [--smoke]
  --smoke    a second's worth of calls, the answers of every path compared and nothing measured or written

The module is found in ../shared/docs/src or in the folder that MINIVISOR_SRC names. The archive is the project's own, made
anew. With CINGHJALOFA_ARCHIVE another archive is measured, and nothing is written.
"""

import os
import subprocess
import sys
from pathlib import Path

PROJECT = Path(__file__).resolve().parents[1]
BENCH = PROJECT / "bench"
BUILT = PROJECT / "target" / "rust"
DOCS = PROJECT / "docs"

sys.dont_write_bytecode = True  # no folders of compiled Python between the sources

import report


class Failed(Exception):
    """A step did not succeed; its own messages stand above."""


def run(words, **options):
    try:
        done = subprocess.run([str(word) for word in words], text=True, **options)
    except FileNotFoundError:
        raise Failed(f"there is no `{words[0]}` here; tools/setup installs what is needed") from None
    if done.returncode != 0:
        raise Failed(f"`{' '.join(map(str, words))}` failed")
    return done.stdout


def make_archive():
    """The archive for this machine, from the sources of now."""
    run([PROJECT / "tools" / "archives"], stdout=subprocess.DEVNULL)


def environment():
    """Folders named from where the caller stands hold in cargo's folders too."""
    settings = {**os.environ, "CARGO_TARGET_DIR": str(BUILT)}
    for name in ("MINIVISOR_SRC", "CINGHJALOFA_ARCHIVE"):
        if name in settings:
            settings[name] = str(Path(settings[name]).resolve())
    return settings


def build():
    run(["cargo", "build", "--release", "--offline", "--quiet"], cwd=BENCH, env=environment())
    return BUILT / "release" / "bench"


def archive():
    """The archive that is measured."""
    of_the_project = run([PROJECT / "tools" / "archives", "--where", os.uname().machine], stdout=subprocess.PIPE).strip()
    return Path(os.environ.get("CINGHJALOFA_ARCHIVE", PROJECT / of_the_project)).resolve()


def sizes():
    """Lines of the stack that each path takes, and of the code in each object of the archive."""
    program = BUILT / "stack"
    words = ["gcc", "-std=c99", "-O2", f"-I{PROJECT / 'include'}", BENCH / "stack.c", archive(), "-o", program]
    run(words)
    stack = run([program], stdout=subprocess.PIPE)
    rows = run(["size", archive()], stdout=subprocess.PIPE).splitlines()[1:]
    code = [f"code\t{row.split()[5]}\t{row.split()[0]}" for row in rows]
    return stack + "\n".join(code)


def versions():
    compiler = " ".join(run(["rustc", "--version"], stdout=subprocess.PIPE).split()[:2])
    kit = run(["rt", "version"], stdout=subprocess.PIPE).strip()
    return f"{compiler}; {kit}"


def write(results):
    (DOCS / "BENCHMARK.md").write_text(report.markdown(results, versions()))
    (DOCS / "benchmark.svg").write_text(report.svg(results))
    print("written: docs/BENCHMARK.md, docs/benchmark.svg")


def smoke(program):
    results = report.Results(run([program, "--smoke"], stdout=subprocess.PIPE))
    print(f"bench: every answer is the one that is due, {results.compared} of them, by: {'; '.join(results.paths)}")


def measure(program):
    results = report.Results(run([program], stdout=subprocess.PIPE) + sizes())
    print(f"Time as a multiple of the module's, on {results.processor}:\n\n{report.table(results, results.ratios)}\n")
    print(f"a page allocated and freed at once:\n\n{report.table(results, results.pairs)}\n")
    print(f"{report.growth(results)}\n\n{report.lengths(results)}\n\n{report.long_lists(results)}\n\n{report.sizes(results)}\n")
    return results


def run_all(is_smoke):
    of_the_project = "CINGHJALOFA_ARCHIVE" not in os.environ
    if of_the_project and not is_smoke:
        make_archive()
    program = build()
    if is_smoke:
        return smoke(program)
    results = measure(program)
    if of_the_project:
        write(results)


def main(words):
    if words not in ([], ["--smoke"]):
        print(__doc__, file=sys.stderr)
        return 2
    try:
        run_all(is_smoke=bool(words))
        sys.stdout.flush()
    except Failed as problem:
        print(f"bench: {problem}", file=sys.stderr)
        return 1
    except OSError as problem:
        print(f"bench: a file or standard output cannot be read or written: {problem}", file=sys.stderr)
        os._exit(1)  # without another try to write
    return 0


if __name__ == "__main__":
    sys.exit(main(sys.argv[1:]))
