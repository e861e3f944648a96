"""What is in each file of the release, in the form of SPDX 2.3: the file pidtab-VERSION.spdx.json."""

import datetime
import hashlib
import json

from release.files import files_below, sha256, write_text

LICENCE = "MIT"
# What is in some files beside this repository's own code, by a word of their names.
INSIDE = {"-musl": ("musl", "MIT", "https://musl.libc.org"), "musllinux": ("musl", "MIT", "https://musl.libc.org")}
# The service, whose files have the crates: as sources, and linked.
SERVICE, SOURCES = "./pidtabd", ".tar.gz"


def package(name, licence, more):
    """A package of the document."""
    return {
        "SPDXID": f"SPDXRef-Package-{name}",
        "name": name,
        "downloadLocation": "NOASSERTION",
        "filesAnalyzed": False,
        "licenseConcluded": licence,
        "licenseDeclared": licence,
        "copyrightText": "NOASSERTION",
        **more,
    }


def file_entry(number, file, data):
    """A file of the release with its sums."""
    sums = {"SHA1": hashlib.sha1(data).hexdigest(), "SHA256": sha256(data)}
    return {
        "SPDXID": f"SPDXRef-File-{number}",
        "fileName": f"./{file.name}",
        "checksums": [{"algorithm": name, "checksumValue": value} for name, value in sums.items()],
        "licenseConcluded": LICENCE,
        "licenseInfoInFiles": [LICENCE],
        "copyrightText": "NOASSERTION",
    }


def crate(name, version, licence):
    """A crate of the service."""
    place = {"referenceCategory": "PACKAGE-MANAGER", "referenceType": "purl", "referenceLocator": f"pkg:cargo/{name}@{version}"}
    return package(f"crate-{name}", licence.replace("/", " OR "), {"name": name, "versionInfo": version, "externalRefs": [place]})


def related(element, kind, other):
    return {"spdxElementId": element, "relationshipType": kind, "relatedSpdxElement": other}


def make(source, parts, crates):
    """Writes the document over all files that are there. The crates are those of the service."""
    files = [file_entry(number, file, file.read_bytes()) for number, file in enumerate(files_below(parts), 1)]
    relations = [related("SPDXRef-DOCUMENT", "DESCRIBES", "SPDXRef-Package-pidtab")]
    relations += [related("SPDXRef-Package-pidtab", "CONTAINS", it["SPDXID"]) for it in files]
    inside = {}
    for it in files:
        for name, licence, home in {value for word, value in INSIDE.items() if word in it["fileName"]}:
            inside[name] = package(name, licence, {"homepage": home})
            relations.append(related(it["SPDXID"], "STATIC_LINK", inside[name]["SPDXID"]))
    crates = [crate(*it) for it in crates]
    for it in (file for file in files if file["fileName"].startswith(SERVICE)):
        kind = "CONTAINS" if it["fileName"].endswith(SOURCES) else "STATIC_LINK"
        relations += [related(it["SPDXID"], kind, inner["SPDXID"]) for inner in crates]
    document = {
        "spdxVersion": "SPDX-2.3",
        "dataLicense": "CC0-1.0",
        "SPDXID": "SPDXRef-DOCUMENT",
        "name": f"pidtab-{source.version}",
        "documentNamespace": f"urn:pidtab:{source.commit}",
        "creationInfo": {
            "created": datetime.datetime.fromtimestamp(source.time, datetime.timezone.utc).strftime("%Y-%m-%dT%H:%M:%SZ"),
            "creators": ["Tool: pidtab-packaging-dist"],
        },
        "packages": [package("pidtab", LICENCE, {"versionInfo": source.version}), *inside.values(), *crates],
        "files": files,
        "relationships": relations,
    }
    write_text(parts / f"pidtab-{source.version}.spdx.json", json.dumps(document, indent=1) + "\n")
