"""Tries packaging/image and what it refuses, packaging/Containerfile, and the Job of examples/scaling."""
import gzip
import hashlib
import io
import json
import pathlib
import re
import tarfile
from collections.abc import Callable
from typing import Any

from argo_judge.yamltext import yaml
from releasing import ROOT
from releasing.checks.installs import PLUGIN, of_program
from releasing.checks.starts import Tried, ended, in_folder, is_there, note
from releasing.image import USER, made_of
from releasing.installing import Refused

JOB = ROOT / "examples/scaling/job.yaml"
CONTAINERFILE = ROOT / "packaging/Containerfile"
# The members of an archive, each with its content.
Members = dict[str, tuple[tarfile.TarInfo, bytes]]


def image_of(archive: pathlib.Path) -> pathlib.Path | None:
    """The image that is made next to a release."""
    if ended([ROOT / "packaging/image", archive]).returncode != 0:
        return None
    return next(archive.parent.glob("*-image.tar"))


def blobs_of(image: pathlib.Path) -> dict[str, bytes]:
    """The files of an image by their paths."""
    with tarfile.open(image) as archive:
        files = {member.name: archive.extractfile(member) for member in archive if member.isfile()}
        return {name: file.read() for name, file in files.items() if file is not None}


def blob(files: dict[str, bytes], descriptor: dict[str, Any]) -> bytes | None:
    """The blob that a descriptor leads to; None where it isn't of that size and digest."""
    content = files.get("blobs/" + descriptor["digest"].replace(":", "/"), b"")
    is_whole = f"sha256:{hashlib.sha256(content).hexdigest()}" == descriptor["digest"]
    return content if is_whole and len(content) == descriptor["size"] else None


def of_layers(image: pathlib.Path, tree: pathlib.Path, folder: pathlib.Path) -> Tried:
    files = blobs_of(image)
    [found] = json.loads(files["index.json"])["manifests"]
    manifest = json.loads(blob(files, found) or b"{}")
    config, [layer] = json.loads(blob(files, manifest["config"]) or b"{}"), manifest["layers"]
    content = blob(files, layer)
    yield "the image's layer is whole", content is not None and config["rootfs"]["diff_ids"] == [layer["digest"]]
    start = config["config"]["Entrypoint"]
    yield "the image starts the program", start == ["/bin/argo_judge"]
    version = manifest["annotations"]["org.opencontainers.image.version"]
    yield "the image has its version", tree.name == f"argo_judge-{version}-linux-x86_64"
    yield "the Job's image is of this version", f"/argo-judge-recipes:{version}\n" in JOB.read_text(encoding="utf-8")
    root = folder / "image"
    root.mkdir()
    (folder / "layer.tar").write_bytes(content or b"")
    ended(["tar", "-xf", folder / "layer.tar", "-C", root])
    words = in_folder(root, start)
    if words is not None:
        yield from of_program("in the image", words)


def of_tools(image: pathlib.Path, folder: pathlib.Path) -> Tried:
    """What programs for images say of one."""
    if is_there("skopeo"):
        found = ended(["skopeo", "inspect", f"oci-archive:{image}"])
        yield "skopeo inspects the image", found.returncode == 0 and '"Architecture": "amd64"' in found.stdout
        layout = folder / "layout"
        copied = ended(["skopeo", "--insecure-policy", "copy", f"oci-archive:{image}", f"oci:{layout}:checked"])
        yield "skopeo copies the image", copied.returncode == 0
        if is_there("umoci"):
            unpack = ["umoci", "unpack", "--rootless", "--image", f"{layout}:checked", str(folder / "bundle")]
            yield "umoci unpacks the image", ended(unpack).returncode == 0
            words = in_folder(folder / "bundle/rootfs", ["/bin/argo_judge"])
            if words is not None:
                yield from of_program("in the image that umoci unpacked", words)


# ---- releases that are refused


def members_of(archive: pathlib.Path) -> Members:
    with tarfile.open(archive) as opened:
        files = [(member, opened.extractfile(member) if member.isreg() else None) for member in opened]
        return {member.name: (member, file.read() if file else b"") for member, file in files}


def write(archive: pathlib.Path, members: Members) -> None:
    made = io.BytesIO()
    with tarfile.open(fileobj=made, mode="w", format=tarfile.USTAR_FORMAT) as opened:
        for member, content in members.values():
            member.size = len(content)
            opened.addfile(member, io.BytesIO(content))
    archive.write_bytes(gzip.compress(made.getvalue(), 1))


def put(members: Members, name: str, content: bytes = b"", kind: bytes = tarfile.REGTYPE, link: str = "") -> None:
    """Puts a member into an archive, or another one into its place."""
    member = tarfile.TarInfo(name)
    member.type, member.linkname = kind, link
    members[name] = member, content


def without_list(members: Members, proved: str) -> None:
    """Takes the list of files out of PROVED, as earlier releases have none."""
    put(members, proved, re.sub(rb"^files: .*?(?=^sources: )", b"", members[proved][1], flags=re.M | re.S))


def changes_of(top: str) -> list[tuple[str, Callable[[Members], object], str]]:
    """Changes of a release, and what its refusal says."""
    lint, plugin, proved, other = (f"{top}/{name}" for name in ("lib/argo_judge/recipes/lint", PLUGIN, "PROVED", "x"))
    return [
        ("a changed file", lambda to: put(to, lint, b"changed"), f"{lint} has the checksum "),
        ("a missing file", lambda to: to.pop(lint), f"{lint} is missing"),
        ("an additional file", lambda to: put(to, other), f"{other} is in it"),
        ("a file in another folder", lambda to: put(to, "other/x"), "other/x is in it"),
        ("a file twice", lambda to: to.update({"once more": to[lint]}), f"{lint} is there twice"),
        ("a link out of it", lambda to: put(to, plugin, kind=tarfile.SYMTYPE, link="/bin/sh"), f"{plugin} leads to"),
        ("a link to itself", lambda to: put(to, other, kind=tarfile.SYMTYPE, link="x"), f"{other} leads to"),
        ("a name of two lines", lambda to: put(to, f"{other}\n"), f"{other}\\n is in it"),
        ("a pipe", lambda to: put(to, other, kind=tarfile.FIFOTYPE), f"{other} is no file"),
        ("no PROVED", lambda to: to.pop(proved), f"it has no {proved}"),
        ("no list of files", lambda to: without_list(to, proved), "its PROVED lists no bin/argo_judge"),
    ]


def refusal(archive: pathlib.Path) -> str:
    """Why no image is made of an archive; nothing where one is made."""
    try:
        made_of(archive).unlink()
    except Refused as fault:
        return str(fault)
    return ""


def of_changed(release: pathlib.Path, folder: pathlib.Path) -> Tried:
    """No image is made of a release whose files aren't those that its PROVED lists."""
    archive, members = folder / "changed" / release.name, members_of(release)
    archive.parent.mkdir()
    write(archive, members)
    yield "an image of a release that is packed anew", refusal(archive) == ""
    for what, change, said in changes_of(release.name.removesuffix(".tar.gz")):
        changed = {**members}
        change(changed)
        write(archive, changed)
        found = refusal(archive)
        is_one_line = found.startswith(f"{archive}: {said}") and "expected" in found and "\n" not in found
        yield f"an image of a release with {what} is refused", is_one_line
    for what, content in (("that is cut", release.read_bytes()[:-1000]), ("that is no archive", b"no archive\n" * 99)):
        archive.write_bytes(content)
        found = refusal(archive)
        yield f"an image of a release {what} is refused", "expected an archive" in found and "\n" not in found
    ended_so = ended([ROOT / "packaging/image", archive])
    is_one_line = ended_so.stdout.startswith(f"image: {archive}: ") and ended_so.stdout.count("\n") == 1
    yield "a refusal is one line", ended_so.returncode == 2 and is_one_line
    yield "and no image is made", [*archive.parent.iterdir()] == [archive]


# ---- who runs images


def of_containerfile(tree: pathlib.Path) -> Tried:
    text = CONTAINERFILE.read_text(encoding="utf-8")
    for source in re.findall(r"^COPY (\S+) ", text, re.M):
        yield f"the Containerfile's {source} is in a release", (tree / source).exists()


def user_of(containerfile: str) -> str:
    """The user of a Containerfile's last stage, if a line that sets it is the last one."""
    lines = [line for line in containerfile.splitlines() if line and not line.startswith("#")]
    return lines[-1].removeprefix("USER ") if lines[-1].startswith("USER ") else ""


def faults_by_yaml(job: str) -> list[str]:
    """Which rights a Job's pods and containers have that a cluster may forbid, by the names of settings."""
    user, group = map(int, USER.split(":"))
    pod = yaml.safe_load(job)["spec"]["template"]["spec"]
    of_pod: dict[str, object] = {"runAsNonRoot": True, "runAsUser": user, "runAsGroup": group}
    of_pod["seccompProfile"] = {"type": "RuntimeDefault"}
    of_each = {"allowPrivilegeEscalation": False, "readOnlyRootFilesystem": True, "capabilities": {"drop": ["ALL"]}}
    given = pod.get("securityContext", {})
    found = [name for name, value in of_pod.items() if given.get(name) != value]
    containers = [*pod.get("initContainers", []), *pod["containers"]]
    return found + [each["name"] for each in containers if each.get("securityContext") != of_each]


def faults_by_text(job: str) -> list[str]:
    """The same of a Job with one container, by its lines."""
    user, group = USER.split(":")
    lines = [line.split(" #")[0].strip() for line in job.splitlines()]
    wanted = [
        "runAsNonRoot: true",
        f"runAsUser: {user}",
        f"runAsGroup: {group}",
        "seccompProfile: {type: RuntimeDefault}",
        "allowPrivilegeEscalation: false",
        "readOnlyRootFilesystem: true",
        "capabilities: {drop: [ALL]}",
    ]
    return [line for line in wanted if lines.count(line) != 1]


def of_users() -> Tried:
    """Images and the Job's pods run as one user without rights."""
    yield "the image's user isn't root", USER.partition(":")[0] not in ("", "0", "root")
    yield "the Containerfile's last stage has it", user_of(CONTAINERFILE.read_text(encoding="utf-8")) == USER
    if yaml is None:
        note("Python has no PyYAML here, so the Job is looked at as text")
    job = JOB.read_text(encoding="utf-8")
    lines = re.findall(r"^.*(?:runAs|seccomp|Escalation|readOnlyRoot|drop:).*\n", job, re.M)
    for faults_of in [faults_by_text] if yaml is None else [faults_by_text, faults_by_yaml]:
        what, faults = f"the Job's pods have few rights, {faults_of.__name__}", faults_of(job)
        yield f"{what}: {faults}", not faults
        seen = [line for line in lines if faults_of(job.replace(line, ""))]
        yield f"{what}: each line is needed", len(lines) == 7 and seen == lines


def of_images(one: pathlib.Path, two: pathlib.Path, tree: pathlib.Path, folder: pathlib.Path) -> Tried:
    """Tries the images of two releases of the same bytes."""
    first, second = image_of(one), image_of(two)
    yield "an image", first is not None and second is not None
    if first is None or second is None:
        return
    yield "the same image twice", first.read_bytes() == second.read_bytes()
    yield from of_layers(first, tree, folder)
    yield from of_tools(first, folder)
    yield from of_containerfile(tree)
    yield from of_changed(one, folder)
