"""The commands broken on purpose, in a copy of the project: the group that is to notice must fail there."""
import shutil
import subprocess
import tempfile
from pathlib import Path

from ground import PROJECT

# what is wrong then; the group that notices; the file in tools/books; what stands there; what stands there instead
BROKEN = [
    ("an r is not widened at its end", "chance", "calls.py", "-(-(call.start + call.size) // unit) * unit", "call.start + call.size"),
    ("a place at the end of a voucher stays", "chance", "pieces.py", "cut = bisect_right(beyond, past)", "cut = bisect_left(beyond, past)"),
    ("groups that are covered stay", "chance", "pieces.py", "del self.groups[low + 1 : high + 1], self.heads[low + 1 : high + 1]", "pass"),
    ("what lies above is lost", "chance", "ranges.py", "left += [(past, end)] if past < end else []", "pass"),
    ("what is taken is added", "chance", "book.py", "self.total -= past - first", "self.total += past - first"),
    ("hexadecimal is read as 0", "chance", "reading.py", "return str(int(field, 16))", 'return "0"'),
    ("the last call is said to be another", "tables", "report.py", "last = f\"{self.words.voucher(voucher.number)}", "last = f\"{self.words.voucher(1)}"),
    ("columns as wide as the numbers that were read", "tables", "held.py", "self.reach = max(self.reach, max(", "self.reach = max(self.reach, 0 * max("),
    ("a cut journal closes", "journals", "report.py", "if not missing and desk", "if desk"),
    ("a journal of another version is read as calls", "journals", "journal.py", 'beginning[:1] < b" " and', "False and"),
    ("a damaged book is passed over", "logs", "check.py", " or entry.answer == DAMAGED", ""),
    ("the last byte is one too far", "tables", "words.py", "to {self.address(past - 1)}", "to {self.address(past)}"),
    ("an overlap is let through", "logs", "book.py", "return not self.free.has_any(first, past) if", "return True if"),
    ("an address may be anywhere", "logs", "book.py", "is_off = call.kind ==", "is_off = call.kind is"),
    ("a range may be missing", "logs", "listing.py", "in book.free.without(union))", "in Ranges())"),
    ("a total may be wrong", "logs", "listing.py", "if summed != answer.value:", "if False:"),
    ("each line counts as answered", "logs", "turns.py", "every = log.calls + bool(log.fault) == held.count", "every = True"),
    ("another line explains", "refusals", "book.py", "self.counted = number", "self.counted = self.counted or number"),
    ("a comma is let through", "lenient", "reading.py", 're.split("[ \\t]+"', 're.split("[ \\t,]+"'),
    ("nothing is said of a mark", "lenient", "reading.py", 'tally.note("mark", 1)', "pass"),
    ("answers without a sign", "journals", "journal.py", '"big", signed=True', '"big", signed=False'),
    ("any length will do", "journals", "journal.py", "if length not in LENGTHS:", "if length == 0:"),
    ("check takes the options of books", "ends", "command.py", "not in OPTIONS[command]", 'not in OPTIONS["books"]'),
    ("a cut listing is the end of all", "logs", "held.py", "except Unreadable as fault:", "except StopIteration as fault:"),
    ("a cut listing is no answer begun", "logs", "turns.py", "log.calls + bool(log.fault) == held.count", "log.calls == held.count"),
    ("no call, where there is no answer", "logs", "check.py", "if desk.entries or not held.calls else []", ""),
    ("nothing is said of other answers", "logs", "check.py", "*last_lines(do_close, sentence, COMPARE)", "sentence"),
    ("why they do not close is not said last", "logs", "report.py", "if do_close else [caveat, sentence]", ""),
    ("nothing is said of the audit", "journals", "books.py", "*(last_lines(is_right, sentence, REPLAY) if is_recorded else [sentence])", "sentence"),
    ("a column as wide as the calls with their answers", "tables", "held.py", 'held.put("".join(lines), "".join(call + "\\n" for call in calls))', 'held.put("".join(lines))'),
    ("a column as wide as the decimal calls", "tables", "report.py", "held.widest if words.is_hex else held.longest", "held.longest"),
    ("what is left out counts for nothing", "views", "page.py", "{sum(left_out)}", "0"),
    ("what came before counts for nothing", "views", "page.py", "total = window.entries[0].total - window.entries[0].change", "total = 0"),
    ("a failure ends with 1", "ends", "command.py", "= 0, 2, 130, 141", "= 0, 1, 130, 141"),
    ("a program that breaks off is believed", "ends", "turns.py", "if running.wait() == 0 and is_whole:", "if running.wait() == 0:"),
    ("links that lead nowhere", "views", "page.py", 'href="#b{entry.number}"', 'href="#c{entry.number}"'),
    ("the page does not say what is not proved", "views", "page.py", " {NOT_PROVED}</p>", "</p>"),
    ("what is taken is drawn free", "views", "picture.py", "free.remove(entry.first, entry.past)", "pass"),
]


def noticed(copy, group, file, old, new):
    """What is wrong where a breakage is not noticed, or could not be made."""
    path = copy / "tools" / "books" / file
    text = path.read_text("utf-8")
    if text.count(old) != 1:
        return f"{file} has no one place to break, {old}"
    path.write_text(text.replace(old, new), "utf-8")
    ended = subprocess.run([copy / "tests" / "books" / "suite", group, "--few"], capture_output=True, text=True, timeout=600)
    path.write_text(text, "utf-8")
    return None if ended.returncode == 1 and f"FAILED: {group}: " in ended.stdout else f"NOT noticed: {ended.stdout[-300:]}{ended.stderr[-300:]}"


def cases(words, is_few=False):
    if is_few:
        return
    with tempfile.TemporaryDirectory() as folder:
        copy = Path(folder) / "project"
        shutil.copytree(PROJECT, copy, ignore=lambda top, _: ["target", ".git"] if Path(top) == PROJECT else [])
        (copy / "target").symlink_to(PROJECT / "target")
        for what, group, file, old, new in BROKEN:
            yield what, noticed(copy, group, file, old, new)
