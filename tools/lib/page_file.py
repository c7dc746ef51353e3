"""The page in one file, which any browser shows without a server."""
import base64
import functools
import hashlib
import html
import json
import re
import zlib
from pathlib import Path

from lib.fault import Fault
from lib.files import HOME, text_of

IMPORT = re.compile(r'^import\s*\{[^}]*\}\s*from\s*"\./([\w-]+)\.js";\n', re.M)
EXPORT = re.compile(r"^export (?=(?:async )?function|class|const|let)", re.M)
STYLE = re.compile(r'<link rel="stylesheet" href="([\w-]+\.css)">\n')
HEAD = re.compile(r'<title>(.*?)</title>\n<meta name="description" content="(.*?)">\n')
# What the page in one file has packed in itself, and its script for the rules.
PACKED = re.compile('<script type="text/plain" id="(?:catalog|module)">([^<]*)</script>')


def modules_of(name="page", found=()):
    """Returns the names of the page's modules, each once, with those that one imports before it."""
    if name in found:
        return found
    for other in IMPORT.findall(text_of(f"page/{name}.js")):
        found = modules_of(other, found)
    return [*found, name]


def hash_of(text):
    return "'sha256-" + base64.b64encode(hashlib.sha256(text.encode()).digest()).decode() + "'"


@functools.lru_cache(4)
def packed(content):
    """Returns bytes packed into letters, as page/packing.js unpacks them."""
    return base64.urlsafe_b64encode(zlib.compress(content, 9, -zlib.MAX_WBITS)).decode()


def unpacked(page):
    """Returns a page in one file with what is packed in it unpacked, since two machines may pack it otherwise."""
    return PACKED.sub(lambda it: repr(zlib.decompress(base64.urlsafe_b64decode(it[1]), -zlib.MAX_WBITS)), page)


def site():
    """Returns the address at which docs/ is published, or an empty text."""
    return re.search('^export const DINE_SITE = "(.*)";$', text_of("page/site.js"), re.M)[1]


def card_of(page, name, address):
    """Returns what a page says of itself to whoever links to it: its title and its description, and where it is
    published also its address and a picture."""
    title, description = HEAD.search(page).groups()
    said = {"og:type": "article" if name == "article.html" else "website", "og:title": title,
            "og:description": description, "twitter:card": "summary"}
    own, canonical = html.escape(address + name.removesuffix("index.html")), ""
    if address:
        said |= {"og:url": own, "og:image": f"{html.escape(address)}page.png", "twitter:card": "summary_large_image"}
        canonical = f'<link rel="canonical" href="{own}">\n'
    return canonical + "".join(f'<meta property="{key}" content="{value}">\n' for key, value in said.items())


def cited(page):
    """Returns a page with what CITATION.cff has of this project and of its paper in the place of names."""
    said = text_of("CITATION.cff")
    own, _, paper = said.partition("\nreferences:")

    def value(key, text):
        return re.search(rf'^ *(?:- )?{key}: "?(.*?)"?$', text, re.M)[1]

    names = {"TITLE": value("title", own), "VERSION": value("version", own), "DATE": value("date-released", own),
             "AUTHORS": ", ".join(re.findall(r'^ *- name: "(.*)"$', own, re.M)), "DOI": value("doi", paper),
             "LICENCE": " or ".join(value("license", own).strip("[]").split(", "))}
    return re.sub("@([A-Z]+)@", lambda it: html.escape(names[it[1]]), page)


def page_of(catalog, name="index", root="page"):
    """Returns a page as one file, with the proved rules and this catalog of plans and lessons: page/index.html, or with
    another name that one. Its modules begin with `root`. It loads nothing, and asks nobody except ./show, if that
    serves it."""
    charset, page = '<meta charset="utf-8">', cited(text_of(f"page/{name}.html"))
    styles = STYLE.findall(page)
    style = "\n" + "\n".join(text_of(f"page/{it}") for it in styles)
    script = "\n" + "\n".join(EXPORT.sub("", IMPORT.sub("", text_of(f"page/{it}.js"))) for it in modules_of(root))
    if re.search(r"^(import|export)\b", script, re.M) or "</script" in script:
        raise Fault("the modules of the page can't be joined")
    held = {"catalog": packed(json.dumps(catalog, separators=(",", ":"), default=str).encode()),
            "module": packed(Path(HOME, "page/dine.wasm").read_bytes()), "worker": text_of("page/worker.js")}
    texts = "".join(f'<script type="text/plain" id="{name}">{text}</script>\n' for name, text in held.items())
    policy = f"default-src 'none'; script-src {hash_of(script)} 'wasm-unsafe-eval'; worker-src blob:; "
    policy += "connect-src 'self'; " if catalog.get("served") else ""
    policy += f"style-src {hash_of(style)}; img-src data:; base-uri 'none'; form-action 'none'"
    described = HEAD.search(page)[0] if HEAD.search(page) else ""
    for wanted, part in (
        (described, described + card_of(page, f"{name}.html", site())),
        ("".join(f'<link rel="stylesheet" href="{it}">\n' for it in styles), f"<style>{style}</style>\n"),
        (f'<script type="module" src="{root}.js"></script>', f'{texts}<script type="module">{script}</script>'),
        (charset, f'{charset}\n<meta http-equiv="Content-Security-Policy" content="{policy}">'),
    ):
        if page.count(wanted) != 1:
            raise Fault(f"page/{name}.html has {wanted} {page.count(wanted)} times")
        page = page.replace(wanted, part)
    return page
