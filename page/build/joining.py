"""Modules of JavaScript joined to one text, those that a module imports first, without their import and export words: each name stands
once, which `node --check` and the browser tell."""
import os
import re


def text(path):
    with open(path, encoding="utf-8") as it:
        return it.read()


IMPORT = re.compile(r'^import (?:\* as (?P<all>\w+)|\{(?P<names>[^}]*)\}) from "(?P<path>\.\.?/[\w./]+\.mjs)";\n', re.M)
EXPORT = re.compile(r"^export (?=(?:async )?(?:function|const|class|let) ([\w$]+))", re.M)


def joined(first):
    """The module at a path, after those that it imports."""
    done, made, exports = {}, [], {}

    def add(path):
        """Adds a module, unless it is there already, and tells the name that it has here."""
        name = f"{os.path.basename(path)[:-4]}_module"
        assert done.setdefault(name, path) == path, f"two modules are called {os.path.basename(path)}: {done[name]}, {path}"
        if any(it.startswith(f"const {name} = ") for it in made):
            return name
        code, names = text(path), ""
        for found in IMPORT.finditer(code):
            other = add(os.path.normpath(os.path.join(os.path.dirname(path), found["path"])))
            wanted = [it.strip().replace(" as ", ": ") for it in (found["names"] or "").split(",") if it.strip()]
            missing = {it.split(":")[0] for it in wanted} - exports[other]
            assert not missing, f"{path}: {found['path']} has no {', '.join(sorted(missing))}"
            names += f"const {found['all']} = {other};\n" if found["all"] else f"const {{ {', '.join(wanted)} }} = {other};\n"
        body = EXPORT.sub("", IMPORT.sub("", code))
        assert not re.search(r"^(import|export)\b", body, re.M), f"{path}: a form of import or export that isn't known here"
        exports[name] = set(EXPORT.findall(code))
        made.append(f"const {name} = (() => {{\n{names}{body}\nreturn {{ {', '.join(EXPORT.findall(code))} }};\n}})();\n")
        return name

    add(first)
    return '"use strict";\n' + "".join(made)
