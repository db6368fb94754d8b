"""pack.py MODULE OUT: the page as one file: markup, style, script, the WebAssembly module, the header's names and the examples."""

import base64
import json
import re
import sys
from pathlib import Path

WEB = Path(__file__).resolve().parent
ROOT = WEB.parent
IMPORT = re.compile(r'^import \{ ([^}]*) \} from "\./(\w+\.js)";\n', re.M)
EXPORT = re.compile(r"^export ((?:async )?(?:function|class|const) (\w+))", re.M)

sys.dont_write_bytecode = True
sys.path.append(str(ROOT / "examples"))
from make import what_it_shows  # noqa: E402


def in_order(name, done):
    """The modules that a module needs, each behind its own needs, and it behind them."""
    for _, needed in IMPORT.findall((WEB / name).read_text()):
        if needed not in done:
            in_order(needed, done)
    done.append(name)
    return done


def wrapped(name):
    """A module as a function of its own, so that names of two modules never meet; what it exports is kept under its name."""
    text = (WEB / name).read_text()
    exported = [match[1] for match in EXPORT.findall(text)]
    text = EXPORT.sub(r"\1", IMPORT.sub(r'const { \1 } = modules["\2"];\n', text))
    if re.search(r"^(import|export)\b", text, re.M):
        raise SystemExit(f"pack.py: web/{name}: an import or export in a form that is not known here")
    return f'modules["{name}"] = (() => {{\n{text}return {{ {", ".join(exported)} }};\n}})();\n'


def packed(path):
    return base64.b64encode(path.read_bytes()).decode()


def examples():
    names = sorted(path.stem for path in (ROOT / "examples").glob("*.txt"))
    return {name: {"shows": what_it_shows(name), "scene": packed(ROOT / "examples" / f"{name}.scene")} for name in names}


def page(module):
    script = "const modules = {};\n" + "".join(map(wrapped, in_order("page.js", [])))
    data = {"module": packed(module), "header": (ROOT / "include" / "bodhranhaze.h").read_text(), "examples": examples()}
    parts = {"STYLE": (WEB / "style.css").read_text(), "DATA": json.dumps(data), "SCRIPT": script}
    # no part may end the element that it stands in
    return re.sub("@(STYLE|DATA|SCRIPT)@", lambda mark: parts[mark[1]].replace("</", "<\\/"), (WEB / "page.html").read_text())


if __name__ == "__main__":
    Path(sys.argv[2]).write_text(page(Path(sys.argv[1])))
