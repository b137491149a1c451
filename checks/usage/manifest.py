"""Compares the manifest for Kubernetes with the schema that Debian's python3-kubernetes has: each member, its type, and what has to be there.

  checks/run manifest

Each container's command has to be in the image, and its words those of the program.
"""
import re
from collections.abc import Iterator
from typing import Any

from common.crates import TOP
from common.parts import needs
from common.tried import none_of

pytestmark = needs(modules=("kubernetes", "yaml"))

MANIFEST = TOP / "examples/kubernetes/pnuts.yaml"
KINDS = {"Service": "V1Service", "PodDisruptionBudget": "V1PodDisruptionBudget", "StatefulSet": "V1StatefulSet"}
PLAIN: dict[str, tuple[type, ...]] = {"str": (str,), "int": (int,), "bool": (bool,), "float": (int, float), "object": (str, int, dict, list)}


def faults_of(models: Any, kind: str, value: Any, where: str) -> Iterator[str]:
    """What of a value is not of a kind, which the models write as `list[V1Container]`, `dict(str, str)` or a name."""
    listed, mapped = re.fullmatch(r"list\[(.+)\]", kind), re.fullmatch(r"dict\(str, (.+)\)", kind)
    if kind in PLAIN:
        if not isinstance(value, PLAIN[kind]) or isinstance(value, bool) and kind == "int":
            yield f"{where} is {value!r}, and no {kind}"
    elif listed:
        if not isinstance(value, list):
            yield f"{where} is no list"
        else:
            for at, each in enumerate(value):
                yield from faults_of(models, listed[1], each, f"{where}[{at}]")
    elif not isinstance(value, dict):
        yield f"{where} is no object"
    elif mapped:
        for name, each in value.items():
            yield from faults_of(models, mapped[1], each, f"{where}.{name}")
    else:
        yield from faults_of_model(models, kind, value, where)


def faults_of_model(models: Any, kind: str, value: dict[str, Any], where: str) -> Iterator[str]:
    model = getattr(models, kind)
    names = {written: name for name, written in model.attribute_map.items()}
    for written, each in value.items():
        if written not in names:
            yield f"{where}.{written} is no member of {kind}"
        else:
            yield from faults_of(models, model.openapi_types[names[written]], each, f"{where}.{written}")
    try:
        model(**{names[it]: each for it, each in value.items() if it in names})
    except ValueError as fault:
        yield f"{where}: {fault}"


def containers_of(manifest: dict[str, Any]) -> list[dict[str, Any]]:
    pod = manifest["spec"]["template"]["spec"]
    return [*pod["initContainers"], *pod["containers"]]


def faults_of_names(manifests: list[dict[str, Any]]) -> Iterator[str]:
    """What members of a manifest say of each other: volumes that are mounted, ports that are named, and the version of the image."""
    version = (TOP / "packaging/debian/changelog").read_text(encoding="utf-8").partition("(")[2].partition(")")[0]
    whole = next(it for it in manifests if it["kind"] == "StatefulSet")
    pod = whole["spec"]["template"]["spec"]
    there = {it["name"] for it in pod["volumes"]} | {it["metadata"]["name"] for it in whole["spec"]["volumeClaimTemplates"]}
    for each in containers_of(whole):
        ports = {it["name"] for it in each.get("ports", [])}
        for probe in (it for name, it in each.items() if name.endswith("Probe")):
            port = next((it["port"] for it in probe.values() if isinstance(it, dict) and "port" in it), None)
            if isinstance(port, str) and port not in ports:
                yield f"{each['name']}: a probe asks at the port {port}, which is not there"
        for mount in each["volumeMounts"]:
            if mount["name"] not in there:
                yield f"{each['name']}: no volume is named {mount['name']}"
        if each["image"] != f"pnuts:{version}":
            yield f"{each['name']}: the image is {each['image']}, and not pnuts:{version}"
    wait = int(next(it for it in containers_of(whole) if it["name"] == "region")["lifecycle"]["preStop"]["exec"]["command"][1])
    stop = int(next(it["value"] for it in containers_of(whole)[1]["env"] if it["name"] == "PNUTS_STOP_SECONDS"))
    if wait + stop + 4 > pod["terminationGracePeriodSeconds"]:
        yield "a stop may take longer than terminationGracePeriodSeconds"


def check_manifest() -> None:
    """Each member is in the schema, and those that speak of each other agree."""
    import yaml
    from kubernetes.client import models
    manifests = [it for it in yaml.safe_load_all(MANIFEST.read_text(encoding="utf-8")) if it is not None]
    none_of([*(fault for it in manifests for fault in faults_of(models, KINDS[it["kind"]], it, it["kind"])), *faults_of_names(manifests)])
    print(f"{len(manifests)} objects")
