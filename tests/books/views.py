"""The page and its picture: what they hold, that nothing is fetched, and how a browser shows and prints them."""
import re
import xml.etree.ElementTree as tree
from html.parser import HTMLParser

import browser
from ground import PROJECT, Folder, held_to, run

SVG = "{http://www.w3.org/2000/svg}"
FREE, HELD, NEVER, MARKED = (0x5C, 0xB8, 0x85), (0x3F, 0x6F, 0xB0), (0xEC, 0xEC, 0xEC), (0xFF, 0xE9, 0xA8)
BAR = 640
A4 = (595, 842)
UNPROVED = "is made by code that is tested and not proved"


class Parts(HTMLParser):
    """Names, links, tags, and whether each tag is closed."""

    def __init__(self, text):
        super().__init__()
        self.ids, self.links, self.tags, self.open, self.problems = [], [], set(), [], []
        self.feed(text)

    def handle_starttag(self, tag, attributes):
        attributes = dict(attributes)
        self.tags.add(tag)
        self.ids += [attributes["id"]] if "id" in attributes else []
        self.links += [attributes[name] for name in ("href", "src", "xlink:href", "data", "action") if name in attributes]
        if tag not in ("meta", "br"):
            self.open.append(tag)

    def handle_startendtag(self, tag, attributes):
        self.handle_starttag(tag, attributes)
        self.open.pop()

    def handle_endtag(self, tag):
        if not self.open or self.open.pop() != tag:
            self.problems.append(f"</{tag}> closes nothing")


def example():
    """The bookkeeper's calls, as README.md has them."""
    return re.search(r"to a file, `calls\.txt`:\n\n```text\n(.*?)```", (PROJECT / "README.md").read_text("utf-8"), re.DOTALL)[1].encode()


def sound(text):
    """What is wrong with a page as such."""
    parts = Parts(text)
    if parts.problems or parts.open:
        return f"its tags do not match: {parts.problems[:3]}, {parts.open}"
    if len(set(parts.ids)) != len(parts.ids):
        return "a name is there twice"
    lost = [link for link in parts.links if link[0] != "#" or link[1:] not in parts.ids]
    if lost or not parts.links:
        return f"links lead nowhere, or out of the page: {lost[:3]}"
    if parts.tags & {"script", "link", "iframe", "img", "object"} or re.search(r"url\(|@import|http(?!://www\.w3\.org/2000/svg)", text):
        return "it fetches something, or needs a script"
    return None if UNPROVED in text and "size: A4" in text else "it does not say what is not proved, or how it is printed"


def drawn(text, totals, whole):
    """Each row of the picture has as many free bytes as the total says, on a true scale."""
    widths = []
    for svg in re.findall(r"<svg.*?</svg>", text, re.DOTALL):
        for row in tree.fromstring(svg).iter(f"{SVG}g"):
            widths.append(sum(float(rect.get("width")) for rect in row.iter(f"{SVG}rect") if rect.get("fill") == "#5cb885"))
    due = [BAR * total / whole for total in totals]
    is_right = len(widths) == len(due) and all(abs(one - other) < 1 for one, other in zip(widths, due))
    return None if is_right else f"the free parts are {widths}, and should be {due}"


def made(folder):
    calls, page, picture = folder.write("calls.txt", example()), folder / "page.html", folder / "picture.svg"
    ended = run("books", calls, "--html", page, "--svg", picture)
    yield held_to("the bookkeeper's example", ended, 1, r"line .*The books close.*", "")
    text = page.read_text("utf-8")
    yield "its page", sound(text)
    yield "its rows", drawn(text, [65536, 61440, 53248, 57344, 57344, 53248, 53248, 53248], 65536)
    shown = (PROJECT / "docs" / "books.svg").read_bytes()
    yield "the picture in docs/", None if shown == picture.read_bytes() else "docs/books.svg is not what `./run books calls.txt --svg docs/books.svg` makes"
    bad = folder.write("<b>&.txt", "f 1 2 <script>|f 0 8|f 0 0x10000000000000000")
    run("books", bad, "--html", page)
    yield "a name and lines with marks in them", sound(page.read_text("utf-8"))
    run("books", folder.write("none", b""), "--html", page)
    yield "a page of nothing", None if "There is nothing to draw" in page.read_text("utf-8") else "it does not say so"


def long_and_sparse(folder):
    page = folder / "page.html"
    run("books", folder.write("long", "|".join(["f 0 1000", *("a 1 0" for _ in range(999))])), "--html", page)
    text = page.read_text("utf-8")
    yield "a long page", sound(text)
    yield "the last vouchers alone", None if text.count('<tr id="v') == 300 and "700 vouchers before them are left out" in text else "they are not"
    yield "drawings of a sheet at most", None if text.count("<svg") == 9 else f"there are {text.count('<svg')}"
    run("books", folder.write("sparse", "f 0 1|f 9223372036854775807 1|a 1 0"), "--html", page)
    text = page.read_text("utf-8")
    yield "bytes far apart", sound(text) or (None if "widths are not true" in text else "its widths cannot be true")


def table_of(text, heading):
    """The rows of the table below a heading, each as its cells."""
    table = text.partition(f"<h2>{heading}</h2>")[2].partition("</table>")[0].partition("<tbody>")[2]
    return [re.findall(r"<td[^>]*>(.*?)</td>", row) for row in table.split("\n") if row.startswith("<tr")]


def left_out(folder):
    """1104 vouchers and 1103 pieces: what is left out is counted and summed, so that the columns add up."""
    page = folder / "page.html"
    run("books", folder.write("many", "|".join(["f 0 5000", "a 5 0", *["a 1 0"] * 1101, "f 0 5"])), "--html", page)
    text = page.read_text("utf-8")
    vouchers, pieces = table_of(text, "The vouchers"), table_of(text, "Byte by byte")
    yield "the vouchers that are left out", differs(vouchers[0], ["804 vouchers, left out here", "+4193", "4193"])
    yield "the rest of them", differs((len(vouchers), sum(int(row[-2]) for row in vouchers), vouchers[-1][-1]), (301, 3899, "3899"))
    yield "the bytes that are left out", differs(pieces[-2], ["103 rows more, left out here", "3894"])
    yield "the rest of these", differs((len(pieces), sum(int(row[-1]) for row in pieces[:-1]), pieces[-1][-1]), (1002, 3899, "3899"))
    run("books", folder.write("few", "f 0 8|a 4 0"), "--html", page)
    yield "of few nothing is", "something is" if "left out" in page.read_text("utf-8") else None


def differs(got, due):
    return None if got == due else f"it is {got}, and should be {due}"


def in_a_browser(folder):
    if not browser.found():
        print("*** NOT TRIED: THE PAGE IN A BROWSER, SINCE THERE IS NO CHROMIUM HERE (tools/setup installs it where it can be had) ***")
        return
    page = folder / "page.html"
    run("books", folder.write("calls", "f 64 64|f 256 32|a 16 0|f 64 8|a 8 3|f 4, 8|l"), "--html", page)
    wide, tall, seen = browser.looked_at(page.as_uri(), 900, 1100)
    yield "its size", None if (wide, tall) == (900, 1100) else f"it is {wide} by {tall}"
    few = [name for name, colour in (("free", FREE), ("held", HELD), ("never offered", NEVER)) if seen[colour] < 300]
    yield "what is free, held and never offered is seen", f"{few} is not" if few else None
    yield "nothing is marked at first", None if seen[MARKED] < 100 else "something is"
    for name in ("#v4", "#b4"):
        seen = browser.looked_at(page.as_uri() + name, 900, 1100)[2]
        yield f"a link to {name} marks it", None if seen[MARKED] > 1000 else f"{seen[MARKED]} points are marked"
    run("books", folder.write("long", "|".join(["f 0 1000", *("a 1 0" for _ in range(299))])), "--html", page)
    sheets = browser.printed(page.as_uri())
    is_right = 5 < len(sheets) < 40 and all(abs(one - other) < 1.5 for sheet in sheets for one, other in zip(sheet, A4))
    yield "printed on A4", None if is_right else f"the sheets are {sheets}"


def cases(words, is_few=False):
    for group in (made, long_and_sparse, left_out, *([] if is_few else [in_a_browser])):
        with Folder() as folder:
            yield from group(folder)
