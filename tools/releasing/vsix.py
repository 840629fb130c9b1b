"""Packs the extension for Visual Studio Code: `tools/releasing/vsix OUT`, at the top of the repository. Equal files give equal bytes.

The package is a ZIP archive with a manifest, in the form of https://github.com/microsoft/vscode-vsce: the files of `editors/vscode` below
`extension`, their content types, and the fields of `package.json`.
"""

import json
import sys
import zipfile
from pathlib import Path
from xml.sax.saxutils import escape, quoteattr

FOLDER = Path("editors/vscode")
LICENSES = ("LICENSE-MIT", "LICENSE-APACHE")
DAY = (1980, 1, 1, 0, 0, 0)  # of all members, the first one that a ZIP archive can state
TYPES = """\
<?xml version="1.0" encoding="utf-8"?>
<Types xmlns="http://schemas.openxmlformats.org/package/2006/content-types">
<Default Extension=".json" ContentType="application/json"/>
<Default Extension=".md" ContentType="text/markdown"/>
<Default Extension=".txt" ContentType="text/plain"/>
<Default Extension=".vsixmanifest" ContentType="text/xml"/>
</Types>
"""
MANIFEST = """\
<?xml version="1.0" encoding="utf-8"?>
<PackageManifest Version="2.0.0" xmlns="http://schemas.microsoft.com/developer/vsx-schema/2011">
<Metadata>
<Identity Language="en-US" Id={name} Version={version} Publisher={publisher}/>
<DisplayName>{title}</DisplayName>
<Description>{description}</Description>
<Categories>{categories}</Categories>
<Properties>
<Property Id="Microsoft.VisualStudio.Code.Engine" Value={engine}/>
<Property Id="Microsoft.VisualStudio.Code.ExtensionDependencies" Value=""/>
<Property Id="Microsoft.VisualStudio.Code.ExtensionPack" Value=""/>
</Properties>
</Metadata>
<Installation><InstallationTarget Id="Microsoft.VisualStudio.Code"/></Installation>
<Dependencies/>
<Assets>
<Asset Type="Microsoft.VisualStudio.Code.Manifest" Path="extension/package.json" Addressable="true"/>
<Asset Type="Microsoft.VisualStudio.Services.Content.Details" Path="extension/README.md" Addressable="true"/>
</Assets>
</PackageManifest>
"""


def main(arguments: list[str]) -> int:
    """Writes the package; returns the exit status."""
    if len(arguments) != 1 or arguments[0].startswith("-"):
        print("usage: tools/releasing/vsix OUT", file=sys.stderr)
        return 2
    package = json.loads((FOLDER / "package.json").read_text("utf-8"))
    manifest = MANIFEST.format(
        name=quoteattr(package["name"]),
        version=quoteattr(package["version"]),
        publisher=quoteattr(package["publisher"]),
        engine=quoteattr(package["engines"]["vscode"]),
        title=escape(package["displayName"]),
        description=escape(package["description"]),
        categories=escape(",".join(package["categories"])),
    )
    members = {"[Content_Types].xml": TYPES.encode(), "extension.vsixmanifest": manifest.encode()}
    members |= {f"extension/{path.name}": path.read_bytes() for path in sorted(FOLDER.iterdir())}
    members |= {f"extension/{name}.txt": Path(name).read_bytes() for name in LICENSES}
    out = Path(arguments[0])
    out.parent.mkdir(parents=True, exist_ok=True)
    with zipfile.ZipFile(out, "w", zipfile.ZIP_DEFLATED) as archive:
        for name, data in members.items():
            member = zipfile.ZipInfo(name, DAY)
            member.external_attr, member.compress_type = 0o644 << 16, zipfile.ZIP_DEFLATED
            archive.writestr(member, data)
    return 0


if __name__ == "__main__":
    sys.exit(main(sys.argv[1:]))
