"""Makes an image of a release's program, without a container engine: dist/argo_judge-VERSION-image.tar.

    packaging/image dist/argo_judge-VERSION-linux-x86_64.tar.gz

It is an OCI archive next to the release's: one layer with /bin/argo_judge, which is what the image starts. The release
has to have the files that its PROVED lists, with these checksums, and no others; otherwise it is refused in one line,
with status 2. The same release gives the same bytes. `skopeo copy oci-archive:FILE docker://NAME:VERSION` puts it into
a registry.
"""
import datetime
import json
import pathlib
import posixpath
import re
import sys
import tarfile
import zlib
from typing import Any

from releasing import evidence
from releasing.archives import File, tar
from releasing.installing import Refused
from releasing.scripts import CommandLine, checksum, ended

ARCHIVE = re.compile(r"(argo_judge-(.+))-linux-x86_64\.tar\.gz")
PROGRAM, PROVED = "bin/argo_judge", "PROVED"
OCI = "application/vnd.oci.image"
# A user without rights, as a cluster may demand.
USER = "65532:65532"


def files_of(archive: tarfile.TarFile) -> dict[str, bytes]:
    """The files of an archive by their paths, links with what they lead to."""
    found: dict[str, bytes] = {}
    links: dict[str, str] = {}
    for member in archive:
        file = archive.extractfile(member) if member.isreg() else None
        if member.name in found or member.name in links:
            raise Refused(f"{member.name} is there twice")
        if file is not None:
            found[member.name] = file.read()
        elif member.issym():
            links[member.name] = posixpath.normpath(posixpath.join(posixpath.dirname(member.name), member.linkname))
        elif not member.isdir():
            raise Refused(f"{member.name} is no file, folder or symbolic link")
    for path, target in links.items():
        if target not in found:
            raise Refused(f"{path} leads to {target}, which is no file of it")
    return {**found, **{path: found[target] for path, target in links.items()}}


def check_files(files: dict[str, bytes], top: str) -> None:
    """Refuses files that aren't the ones that PROVED lists, with their checksums, in the folder `top`."""
    if f"{top}/{PROVED}" not in files:
        raise Refused(f"it has no {top}/{PROVED}")
    listed = evidence.files_of(files[f"{top}/{PROVED}"].decode("utf-8", "replace"))
    if PROGRAM not in listed:
        raise Refused(f"its {PROVED} lists no {PROGRAM}")
    wanted = {f"{top}/{path}": checksum for path, checksum in listed.items()}
    for path in sorted({*wanted, *files} - {f"{top}/{PROVED}"}):
        if path not in files:
            raise Refused(f"{path} is missing, which its {PROVED} lists")
        if path not in wanted:
            raise Refused(f"{path} is in it, which its {PROVED} doesn't list")
        if checksum(files[path]) != wanted[path]:
            raise Refused(f"{path} has the checksum {checksum(files[path])}; its {PROVED} lists {wanted[path]}")


def read(release: pathlib.Path, top: str) -> tuple[dict[str, bytes], int]:
    """The files of a release by their paths, as its PROVED lists them, and the time of its program."""
    try:
        with tarfile.open(release, "r:gz") as archive:
            files = files_of(archive)
            check_files(files, top)
            time = int(archive.getmember(f"{top}/{PROGRAM}").mtime)
    except (Refused, EOFError, zlib.error, tarfile.TarError) as fault:
        found = str(fault).replace("\n", "\\n")
        raise Refused(f"{release}: {found}; expected an archive as bin/release makes it") from None
    return {path.removeprefix(f"{top}/"): content for path, content in files.items()}, time


class Blobs(dict):
    """The parts of an image, each by its digest."""

    def add(self, kind: str, content: bytes) -> dict[str, Any]:
        """Adds a part, and answers what leads to it."""
        digest = checksum(content)
        self[f"blobs/sha256/{digest}"] = File(content)
        return {"mediaType": f"{OCI}.{kind}", "digest": f"sha256:{digest}", "size": len(content)}


def as_json(**members: object) -> bytes:
    return json.dumps(members, sort_keys=True).encode("ascii")


def image(program: bytes, version: str, commit: str, time: int) -> bytes:
    """The OCI archive of a program."""
    blobs = Blobs()
    notes = {"org.opencontainers.image.version": version, "org.opencontainers.image.revision": commit}
    layer = blobs.add("layer.v1.tar", tar({PROGRAM: File(program, is_executable=True)}, time))
    created = datetime.datetime.fromtimestamp(time, datetime.timezone.utc).strftime("%Y-%m-%dT%H:%M:%SZ")
    config = blobs.add(
        "config.v1+json",
        as_json(
            architecture="amd64",
            os="linux",
            created=created,
            rootfs={"type": "layers", "diff_ids": [layer["digest"]]},
            config={"Entrypoint": [f"/{PROGRAM}"], "User": USER, "Labels": notes},
        ),
    )
    manifest = blobs.add(
        "manifest.v1+json",
        as_json(schemaVersion=2, mediaType=f"{OCI}.manifest.v1+json", config=config, layers=[layer], annotations=notes),
    )
    manifest["annotations"] = {"org.opencontainers.image.ref.name": version}
    index = as_json(schemaVersion=2, mediaType=f"{OCI}.index.v1+json", manifests=[manifest])
    return tar({"oci-layout": File(as_json(imageLayoutVersion="1.0.0")), "index.json": File(index), **blobs}, time)


def made_of(release: pathlib.Path) -> pathlib.Path:
    """Makes the image next to the release that it is made of."""
    name = ARCHIVE.fullmatch(release.name)
    if name is None:
        raise Refused(f"{release}: expected a file argo_judge-VERSION-linux-x86_64.tar.gz, as bin/release makes it")
    files, time = read(release, release.name.removesuffix(".tar.gz"))
    commit = re.search(r"^commit: (\w+)$", files[PROVED].decode("utf-8", "replace"), re.M)
    if commit is None:
        raise Refused(f"{release}: its {PROVED} names no commit")
    file = release.with_name(f"{name[1]}-image.tar")
    file.write_bytes(image(files[PROGRAM], name[2], commit[1], time))
    return file


def main() -> pathlib.Path:
    parser = CommandLine("image", __doc__)
    parser.add_argument("release", metavar="ARCHIVE", type=pathlib.Path, help="what bin/release made")
    return made_of(parser.parse_args().release)


if __name__ == "__main__":
    sys.exit(ended("image", main))
