#!/usr/bin/env python3
"""Packs the extension for VS Code: python3 editor/vscode/pack.py [FILE]. It writes FILE, or nektavoly.vsix in the folder in which
it is called. The extension has all that `xv.mjs --dap` needs, and the shell with its programs, so it wants no clone. The same
sources give the same bytes. It needs Python 3 alone; release.sh calls it.
"""
import json
import pathlib
import sys
import zipfile

HOME = pathlib.Path(__file__).resolve().parent
TOP = HOME.parents[1]
FILES = ("extension.js", "language.json", "assembler.json", "trace.json")
# What the adapter needs, and what it debugs.
NEEDED = (
    "xv.mjs", "LICENSE", "VERSION", "anywhere/src/*.mjs", "anywhere/editor/*.mjs", "anywhere/machine/*.mjs", "programs/host/words.txt",
    "page/nektavoly.html", "programs/bin/*", "programs/c/tables/*", "programs/c/src/*", "programs/c/lib/*",
)
KINDS = {"json": "application/json", "js": "application/javascript", "mjs": "application/javascript", "vsixmanifest": "text/xml"}
OTHER_KIND = "application/octet-stream"


def manifest(about):
    return f"""<?xml version="1.0" encoding="utf-8"?>
<PackageManifest Version="2.0.0" xmlns="http://schemas.microsoft.com/developer/vsx-schema/2011">
  <Metadata>
    <Identity Language="en-US" Id="{about['name']}" Version="{about['version']}" Publisher="{about['publisher']}"/>
    <DisplayName>{about['displayName']}</DisplayName>
    <Description xml:space="preserve">{about['description']}</Description>
    <Categories>{','.join(about['categories'])}</Categories>
    <Properties><Property Id="Microsoft.VisualStudio.Code.Engine" Value="{about['engines']['vscode']}"/></Properties>
  </Metadata>
  <Installation><InstallationTarget Id="Microsoft.VisualStudio.Code"/></Installation>
  <Dependencies/>
  <Assets><Asset Type="Microsoft.VisualStudio.Code.Manifest" Path="extension/package.json" Addressable="true"/></Assets>
</PackageManifest>
"""


def content_types(names):
    """The kind of each file: by the end of its name, or for one without such an end by its name."""
    ends = sorted({name.rsplit(".", 1)[1] for name in names if "." in name.rsplit("/", 1)[-1]} | set(KINDS))
    kinds = "".join(f'<Default Extension=".{end}" ContentType="{KINDS.get(end, OTHER_KIND)}"/>' for end in ends)
    others = [name for name in names if "." not in name.rsplit("/", 1)[-1]]
    kinds += "".join(f'<Override PartName="/{name}" ContentType="{OTHER_KIND}"/>' for name in others)
    return f'<?xml version="1.0" encoding="utf-8"?>\n<Types xmlns="http://schemas.openxmlformats.org/package/2006/content-types">{kinds}</Types>\n'


def about_extension():
    """package.json, with the version, and the configurations of launch.json for who has none."""
    about = json.loads((HOME / "package.json").read_text(encoding="utf-8"))
    about["version"] = (TOP / "VERSION").read_text(encoding="utf-8").strip()
    launch = json.loads((HOME / "launch.json").read_text(encoding="utf-8"))
    about["contributes"]["debuggers"][0]["initialConfigurations"] = launch["configurations"]
    return about


def main(words):
    if len(words) > 1 or words[:1] == ["--help"]:
        print(__doc__.strip(), file=sys.stderr)
        return 2
    about = about_extension()
    held = {f"extension/{name}": (HOME / name).read_bytes() for name in FILES}
    held["extension/package.json"] = (json.dumps(about, indent=2) + "\n").encode()
    needed = sorted(path for pattern in NEEDED for path in TOP.glob(pattern) if path.is_file())
    held.update({f"extension/nektavoly/{path.relative_to(TOP).as_posix()}": path.read_bytes() for path in needed})
    held["extension.vsixmanifest"] = manifest(about).encode()
    held = {"[Content_Types].xml": content_types(list(held)).encode(), **held}
    to = pathlib.Path(words[0] if words else "nektavoly.vsix")
    # Nothing is pressed: that differs by the version of zlib.
    with zipfile.ZipFile(to, "w", zipfile.ZIP_STORED) as made:
        for name, content in held.items():
            made.writestr(zipfile.ZipInfo(name, (2000, 1, 1, 0, 0, 0)), content)
    print(f"{to}: {to.stat().st_size} bytes")
    return 0


if __name__ == "__main__":
    sys.exit(main(sys.argv[1:]))
