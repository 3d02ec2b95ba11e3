"""Packs editors/vscode as an extension that VS Code installs: python/run repo.vsix FILE.vsix

A .vsix is a zip with the files of the extension, a manifest, and the kinds of its files. The same files give the same bytes.
Without FILE it is looked whether the extension is whole: that what package.json names is there, and that its scripts ask for
nothing but each other, the editor and Node's own modules.
"""

from __future__ import annotations

import json
import pathlib
import re
import sys
import zipfile
from html import escape
from typing import Any

from wavescalar.programs import ROOT

HOME = ROOT / "editors" / "vscode"
LEFT_OUT = {"try.js"}
OWN = {"vscode", "child_process"}
KINDS = {".json": "application/json", ".js": "application/javascript", ".md": "text/markdown", ".vsixmanifest": "text/xml"}
MANIFEST = """<?xml version="1.0" encoding="utf-8"?>
<PackageManifest Version="2.0.0" xmlns="http://schemas.microsoft.com/developer/vsx-schema/2011">
  <Metadata>
    <Identity Language="en-US" Id="{name}" Version="{version}" Publisher="{publisher}"/>
    <DisplayName>{displayName}</DisplayName>
    <Description xml:space="preserve">{description}</Description>
    <Categories>{categories}</Categories>
    <Properties>
      <Property Id="Microsoft.VisualStudio.Code.Engine" Value="{engine}"/>
    </Properties>
  </Metadata>
  <Installation>
    <InstallationTarget Id="Microsoft.VisualStudio.Code"/>
  </Installation>
  <Dependencies/>
  <Assets>
    <Asset Type="Microsoft.VisualStudio.Code.Manifest" Path="extension/package.json" Addressable="true"/>
  </Assets>
</PackageManifest>
"""


def files() -> list[pathlib.Path]:
    """The files of the extension."""
    return sorted(it for it in HOME.rglob("*") if it.is_file() and it.name not in LEFT_OUT)


def manifest(package: dict[str, Any]) -> str:
    """The manifest that stands beside the files."""
    told = {key: escape(str(package[key])) for key in ("name", "version", "publisher", "displayName", "description")}
    engine, categories = package["engines"]["vscode"], ",".join(package["categories"])
    return MANIFEST.format(**told, categories=escape(categories), engine=escape(engine))


def kinds(names: list[str]) -> str:
    """The kinds of the files, by their endings."""
    endings = sorted({pathlib.PurePath(name).suffix for name in names} | {".vsixmanifest"})
    rows = "".join(f'<Default Extension="{it}" ContentType="{KINDS[it]}"/>' for it in endings)
    return ('<?xml version="1.0" encoding="utf-8"?>\n'
            f'<Types xmlns="http://schemas.openxmlformats.org/package/2006/content-types">{rows}</Types>\n')


def pack(target: pathlib.Path) -> None:
    """Writes the package."""
    package = json.loads((HOME / "package.json").read_text())
    parts = {f"extension/{file.relative_to(HOME)}": file.read_bytes() for file in files()}
    parts |= {"extension.vsixmanifest": manifest(package).encode(), "[Content_Types].xml": kinds(list(parts)).encode()}
    with zipfile.ZipFile(target, "w", zipfile.ZIP_DEFLATED) as packed:
        for name, data in sorted(parts.items()):
            entry = zipfile.ZipInfo(name, (1980, 1, 1, 0, 0, 0))
            entry.external_attr, entry.compress_type = 0o644 << 16, zipfile.ZIP_DEFLATED
            packed.writestr(entry, data)


def lacks() -> list[str]:
    """What package.json and the scripts name, and isn't there."""
    package = json.loads((HOME / "package.json").read_text())
    contributes = package["contributes"]
    named = [package["main"], *(it["configuration"] for it in contributes["languages"]),
             *(it["path"] for it in contributes["grammars"])]
    wrong = [f"package.json names {name}, which isn't there" for name in named if not (HOME / name).is_file()]
    wrong += [f"package.json has {key}, which wants a build" for key in ("dependencies", "scripts") if package.get(key)]
    for file in files():
        if file.suffix == ".js":
            for name in re.findall(r'require\("([^"]+)"\)', file.read_text()):
                if name not in OWN and not (HOME / f"{name}.js").is_file():
                    wrong.append(f"{file.name} wants {name}")
    return wrong


def main() -> int:
    """Packs, or looks: status 1 where something lacks."""
    wrong = lacks()
    print("".join(f"editors/vscode: {it}\n" for it in wrong), end="", file=sys.stderr)
    if not wrong and sys.argv[1:]:
        pack(pathlib.Path(sys.argv[1]))
    return 1 if wrong else 0


if __name__ == "__main__":
    sys.exit(main())
