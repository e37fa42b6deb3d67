"""What the guide names and the suite does not try: every exception with its reason. Each is held to what it says."""
from dataclasses import dataclass


@dataclass
class Uncalled:
    """A command that is shown and not run here; `text` stands in `file`, which does run it, or a bounded form of it."""

    command: str
    reason: str
    file: str
    text: str


UNCALLED = [
    Uncalled("./test", "this suite is a step of it", "test", "tests/*/suite"),
    Uncalled("tools/bench", "it measures for minutes and writes docs/", "tests/rust/suite", "tools/bench --smoke"),
]

# Files that a command makes in target/, so that a fresh clone has them not.
MADE = {
    "target/": "tools/archives",
    **{f"target/library/{kind}/libcinghjalofa.a": "tools/archives" for kind in ("x86_64", "aarch64", "aarch64-mmu", "aarch64-uefi")},
}

# Names that are not the project's.
ELSEWHERE = {
    "src/memory_allocator.rs": "MiniVisor's module",
    "memory_allocator.rs": "the same",
    "src/paging.rs": "MiniVisor's",
    "paging.rs": "the same",
    "init_stage2_translation_table": "in it",
    "../shared/docs/src": "where MiniVisor's source may lie",
    "UnsafeCell": "in MiniVisor's module",
    "set_range": "in MiniVisor's module",
    "compiler_builtins": "Rust's",
    "/dev/null": "the system's",
    "Proof.antt": "a file of proofs on the older kit",
}
