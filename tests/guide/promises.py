"""Each record of promises in crates/promises/specs is shown: crates/promises/proofs has a public proof of it."""
import re

STATED, SHOWN = "crates/promises/specs", "crates/promises/proofs"


def unshown(project):
    stated = "\n".join(path.read_text("utf-8") for path in sorted((project / STATED).glob("*.antt")))
    shown = "\n".join(path.read_text("utf-8") for path in sorted((project / SHOWN).glob("*.antt")))
    text = re.sub(r"^.*\buse .*$|--.*$", "", stated, flags=re.M)
    for name in re.findall(r"^pub record (\w+)", text, re.M):
        is_part = len(re.findall(rf"\b{name}\b", text)) > 1  # of another promise, or what promises speak of
        if not is_part and not re.search(rf"^ *pub [\w-]+ : (?:.*→ )?{name}\b", shown, re.M):
            yield f"{STATED}: {name} is promised, and nothing public in {SHOWN} shows it"
