"""The lines `// In MiniVisor: NAME, ..` above functions of the port: each name is a function of the module, and each function of the
module is named, or has its reason here for having no counterpart."""
import re
from pathlib import Path

CRATES = Path(__file__).resolve().parents[2] / "crates"
LINE = re.compile(r"^// In MiniVisor: (.+)\.\n(?:pub )?fn (\w+)", re.M)
FUNCTION = re.compile(r"^ *(?:pub )?(?:const )?fn (\w+)", re.M)
WITHOUT = {
    "get_memory_entry": "a record is a place of the arrays, not a reference",
    "get_start_address": "a place of an array",
    "get_end_address": "a place of an array; and the sum, which is written where it is needed",
    "is_first_entry": "a link to none",
}


def problems(module):
    functions, named = set(FUNCTION.findall(module.read_text("utf-8"))), set()
    for path in sorted(CRATES.glob("*/src/**/*.rt")):
        for names, function in LINE.findall(path.read_text("utf-8")):
            for name in names.split(", "):
                named.add(name)
                if name not in functions:
                    yield f"{path.relative_to(CRATES.parent)}: {function} names {name}, and the module has no such function"
    for name in sorted(functions - named - set(WITHOUT)):
        yield f"no function of the port names {name}; name it, or say why in tests/oracle/counterparts.py"
    for name in sorted(named & set(WITHOUT)):
        yield f"{name} has a counterpart now; drop its reason in tests/oracle/counterparts.py"


def held(module):
    """0 where nothing is wrong; what is, is printed."""
    found = list(problems(module))
    for problem in found:
        print(f"FAILED: {problem}")
    if not found:
        print("each function of the module has its counterpart, or a reason for having none")
    return 1 if found else 0
