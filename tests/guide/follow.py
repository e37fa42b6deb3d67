"""The pages followed from the top, as a reader would: files are written, programs compiled, commands run and what they print compared."""
import difflib
import platform

from exceptions import UNCALLED
from pages import FILES
from reader import is_shown
from statics import commands_of

HERE = ("", platform.machine())
USUAL = '[dependencies]\ncinghjalofa = { path = "../cinghjalofa/rust/cinghjalofa" }'


def _is_loose(command, printed):
    """Whether a line of the page could be another one, and the comparison would not notice."""
    for at, line in enumerate(command.shown):
        other = [*command.shown[:at], "x" + line, *command.shown[at + 1 :]]
        if line != "..." and is_shown(other, printed):
            return True
    return False


def _run(place, command):
    for exception in UNCALLED:
        if exception.command == command.words:
            print(f"-- {command.where} $ {command.words}: not run here, for {exception.reason}; {exception.file} has `{exception.text}`")
            return None
    said = place.run(command.words)
    print(f"-- {command.where} $ {command.words} ({said.seconds:.1f} s)", flush=True)
    if said.status != 0:
        return f"{command.where}: `{command.words}` ended with {said.status}\n{said.out}{said.errors}"
    if not is_shown(command.shown, said.out):
        shown = "\n".join(difflib.unified_diff(command.shown, said.out.splitlines(), "the page", "the command", lineterm=""))
        return f"{command.where}: `{command.words}` does not print what the page shows\n{shown}"
    if _is_loose(command, said.out):
        return f"{command.where}: of what `{command.words}` prints so much is left out that a wrong line would pass"
    return None


def _program(place, page, block):
    """A Rust program without a name, with the dependencies that the page shows without a name, in a package beside the project."""
    fragments = ["\n".join(each.lines) for each in page.blocks if each.kind == "toml" and not each.name]
    name = f"program_{len(list(place.above.iterdir()))}"
    manifest = f'[package]\nname = "{name}"\nversion = "0.1.0"\nedition = "2021"\n\n' + "\n".join(fragments or [USUAL])
    place.write(f"../{name}/Cargo.toml", manifest.split("\n"))
    place.write(f"../{name}/src/main.rs", block.lines)
    said = place.run(f"cargo run --quiet --manifest-path ../{name}/Cargo.toml", CARGO_TARGET_DIR=str(place.above / "built"))
    print(f"-- {block.where} a Rust program ({said.seconds:.1f} s)", flush=True)
    return f"{block.where}: this program does not compile, or ends with a failure\n{said.errors}" if said.status != 0 else None


def follow(place, page):
    """What is wrong, as it turns up; a block of a kind that nothing knows is passed over."""
    for block in page.blocks:
        if block.kind in FILES and block.name:
            problem = place.write(block.name, block.lines)
            yield problem and f"{block.where}: the file {block.name} {problem}"
        elif block.kind == "rust":
            yield _program(place, page, block)
        elif block.kind == "sh" and block.machine in HERE:
            for command in commands_of(block):
                yield _run(place, command)


def left_out(pages):
    """The commands that are for another kind of machine."""
    blocks = [block for page in pages for block in page.blocks if block.kind == "sh" and block.machine not in HERE]
    return [f"{command.where} $ {command.words}" for block in blocks for command in commands_of(block)]
