"""The list of what a release is made of, with versions, licences and sums, in the form of SPDX 2.3.

What is said of a licence is what its files say. The kit states none for its own code, which is NOASSERTION here, and has
those of others beside some of its crates.
"""
import hashlib
import os
import re
import uuid

import jp_tools
from unproved import uses_of

LICENCE = "MIT OR Apache-2.0"
UNKNOWN = "NOASSERTION"
# By what a licence's text is known, and its name in SPDX. Unicode's has the words of MIT's too.
KNOWN = {
    "Apache License": "Apache-2.0",
    "UNICODE LICENSE V3": "Unicode-3.0",
    "Permission is hereby granted, free of charge": "MIT",
}
# What is built of the crates, by the crate: the libraries of the kit below it may have code in each.
BUILT = {"jp": "jp", "jp_lines_main": "jp-lines", "jp_c": "libjp"}


def _id(name):
    return "SPDXRef-" + re.sub(r"[^A-Za-z0-9.-]", "-", name)


def _sum(method, data):
    return hashlib.new(method, data).hexdigest()


def _licence_of_text(text):
    plain = " ".join(text.split())
    return next((name for words, name in KNOWN.items() if words in plain), UNKNOWN)


def licence_in(folder):
    """The licence that the files of a folder state. Those of LICENSE-APACHE and LICENSE-MIT are a choice."""
    names = sorted(it for it in os.listdir(folder) if it.startswith("LICENSE"))
    texts = {it: jp_tools.contents(os.path.join(folder, it)).decode() for it in names}
    stated = {it: _licence_of_text(texts[it]) for it in names}
    if {"LICENSE-APACHE", "LICENSE-MIT"} <= {*names}:
        others = {stated[it] for it in names if it not in ("LICENSE-APACHE", "LICENSE-MIT")}
        return " AND ".join([f"({LICENCE})" if others else LICENCE, *sorted(others)])
    return " AND ".join(sorted({*stated.values()})) or UNKNOWN


def kit_libraries(name, kit):
    """The libraries of the kit that stand below a crate."""
    used, found, waiting = jp_tools.libraries_used(), set(), [name]
    while waiting:
        library = waiting.pop()
        if library not in found:
            found.add(library)
            waiting += uses_of(library, used, kit)
    return sorted(found - {*used})


def _package(name, version, licence, **more):
    told = {"SPDXID": _id(name), "name": name, "downloadLocation": UNKNOWN, "filesAnalyzed": False}
    told |= {"licenseConcluded": licence, "licenseDeclared": licence, "copyrightText": UNKNOWN}
    return told | ({"versionInfo": version} if version else {}) | more


def _file(path, data, licence):
    sums = [{"algorithm": it.upper(), "checksumValue": _sum(it, data)} for it in ("sha1", "sha256")]
    return {"SPDXID": _id(f"file-{path}"), "fileName": f"./{path}", "checksums": sums, "licenseConcluded": licence,
            "copyrightText": UNKNOWN}


def _relation(one, kind, other):
    return {"spdxElementId": one, "relationshipType": kind, "relatedSpdxElement": other}


def _kit_packages(kit, kit_name, libraries):
    """The kit, and of it the libraries, each with the licence whose text lies beside it."""
    about = "The kit states no licence of its own code."
    packages = [_package(kit_name, kit_name.removeprefix("rattle-kit-"), UNKNOWN, comment=about)]
    for name in libraries:
        licence = licence_in(os.path.join(kit, "rattle", name))
        told = _package(f"rattle/{name}", packages[0]["versionInfo"], UNKNOWN, comment=f"A library of {kit_name}.")
        packages.append(told | {"licenseDeclared": licence})
    return packages


def _whole(name, version, files, left_out):
    """The release itself, with the sum of its files' sums."""
    sums = "".join(sorted(it["checksums"][0]["checksumValue"] for it in files))
    code = {"packageVerificationCodeValue": _sum("sha1", sums.encode()),
            "packageVerificationCodeExcludedFiles": [f"./{it}" for it in left_out]}
    return _package(name, version, UNKNOWN, filesAnalyzed=True, packageVerificationCode=code) | {"licenseDeclared": LICENCE}


def document(name, version, commit, created, kit_words, files, holds, left_out, editor):
    """The list as it is written: of a release with a name, a version and a commit, when that was made, what `rt version`
    tells, the files by their paths, what each has compiled code of (jp, jp-lines, libjp or CodeMirror), the files that are
    not listed, and the version of CodeMirror."""
    kit, kit_name = jp_tools.kit(), kit_words.split()[0]
    below = {built: kit_libraries(crate, kit) for crate, built in BUILT.items()}
    listed = [_file(path, files[path], UNKNOWN if path in holds else LICENCE) for path in sorted(files)]
    packages = [_whole(name, version, listed, left_out)]
    about = f"Of the commit {commit}. Its own code; that of the kit's libraries below it is theirs."
    packages += [_package(it, version, LICENCE, comment=about) for it in below]
    packages += _kit_packages(kit, kit_name, sorted({it for libraries in below.values() for it in libraries}))
    if editor:
        packages.append(_package("CodeMirror", editor, "MIT"))
    relations = [_relation("SPDXRef-DOCUMENT", "DESCRIBES", _id(name))]
    relations += [_relation(_id(name), "CONTAINS", it["SPDXID"]) for it in listed]
    relations += [_relation(_id(f"file-{path}"), "CONTAINS", _id(it)) for path in sorted(holds) for it in holds[path]]
    relations += [_relation(_id(it), "DEPENDS_ON", _id(f"rattle/{library}")) for it in below for library in below[it]]
    relations += [_relation(it["SPDXID"], "CONTAINED_BY", _id(kit_name)) for it in packages if "rattle/" in it["name"]]
    unique = uuid.uuid5(uuid.NAMESPACE_URL, packages[0]["packageVerificationCode"]["packageVerificationCodeValue"])
    return {
        "spdxVersion": "SPDX-2.3",
        "dataLicense": "CC0-1.0",
        "SPDXID": "SPDXRef-DOCUMENT",
        "name": name,
        "documentNamespace": f"https://spdx.org/spdxdocs/{name}-{unique}",
        "creationInfo": {"created": created, "creators": ["Tool: packaging/release"]},
        "packages": packages,
        "files": listed,
        "relationships": relations,
    }
