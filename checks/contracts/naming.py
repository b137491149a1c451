"""Tries how the functions of sources are told apart by the names that a check gives them.

  checks/run naming [--log LOG]...

LOG is what a check said, or the gate. Each function that it names and that stands in a source has to be one function there. (Laws,
and what std or a macro writes, stand in none.)
"""
import re

import pytest

from common.served import same
from common.tried import none_of
from contracts.locations import FUNCTION, SIGNATURE_END, Location, is_at, location_at, owner_of, source, sources_of

# The heads of impls, each after its word `impl`, and how a check names what they have.
HEADS = {
    " KeyText": "KeyText",
    "<K: Ord + Dup, C: Join> Table<K, C>": "Table",
    "<'a> FakeSource<'a>": "FakeSource",
    " Table<StreamName, Highest>": "Table+StreamName+Highest",
    " PartialEq for Key": "KeyPartialEq",
    " fmt::Display for Refused<'_>": "RefusedDisplay",
    " From<ImageFault> for Refusal": "RefusalFromImageFault",
    "<T: Drop> From<AllocFailed<T>> for NoMemory": "NoMemoryFromAllocFailed",
    "<R: Wait + Copy, S: Source + Drop> Origin<S> for OnePublisher<R>": "OnePublisherOrigin",
    "<W: Write> Sink for W": "AnySink",
    " View for &Region": "RefRegionView",
    "<K: Ord + Dup, C: Join> Node<K, C> for Vec<(K, C)>": "VecTuple2Node",
    " From<ListenFault> for io::Error": "IoErrorFromListenFault",
}
FAULT = Location("fault", "from", "StreamFaultFromNoMemory", "fault")
TAKE = Location("region::rounds", "take", "LiveRegion", "region")
ROOT = Location("", "eq", "", "")
OTHERS = (
    (FAULT, "pn_stream::fault::ResumeFaultFromNoMemory::from"),
    (FAULT, "pn_stream::fault::ResumeFaultFromStreamFault::from"),
    (FAULT, "pn_stream::other::StreamFaultFromNoMemory::from"),
    (FAULT, "pn_stream::fault::StreamFaultFromNoMemory::from_all"),
    (TAKE, "pn_live::region::LiveRegionReader::take"),
    (TAKE, "pn_live::region::LiveRegion::take::take"),
    (TAKE, "pn_live::region::fn::take::LiveRegion"),
    (ROOT, "pn_stream::Key::eq"),
    (ROOT, "pn_stream::key::eq"),
)
OWN = (
    (FAULT, "pn_stream::fault::StreamFaultFromNoMemory::from"),
    (FAULT, "pn_stream::fault::fn::StreamFaultFromNoMemory::from::map_err"),
    (TAKE, "pn_live::region::LiveRegion::take"),
    (TAKE, "pn_live::region::fn::LiveRegion::take::any+FnMut::call_mut"),
    (ROOT, "pn_stream::eq"),
)


@pytest.mark.parametrize(("head", "word"), HEADS.items())
def check_heads_of_impls(head: str, word: str) -> None:
    """The head of an impl has the word that a check names it by."""
    same("its word", owner_of(head)[0], word)


@pytest.mark.parametrize(("at", "name", "is_own"), [*((*it, True) for it in OWN), *((*it, False) for it in OTHERS)])
def check_names(at: Location, name: str, is_own: bool) -> None:
    """A name is of the function that has it, and of no other."""
    same("whether it is of the function", is_at(name, at), is_own)


def functions_of(crate: str) -> set[Location]:
    """The functions that the sources of a crate have bodies of."""
    found = set()
    for path in sources_of(crate):
        text = source(crate, path)
        for function in FUNCTION.finditer(text):
            signature = SIGNATURE_END.search(text, function.start())
            at = location_at(crate, path, text, signature.end() + 1) if signature else None
            if at and at.name == function[1]:
                found.add(at)
    return found


def faults_in(log: str) -> list[str]:
    """The names of a log that are of several functions, and those of a source's module that are of none."""
    with open(log, encoding="utf-8", errors="replace") as file:
        names = sorted(set(re.findall(r"^fn (\w+::[\w:+]+): ", file.read(), re.M)))
    known = {crate: functions_of(crate) for crate in dict.fromkeys(it.partition("::")[0] for it in names)}
    faults = []
    for name in names:
        found = [it for it in known[name.partition("::")[0]] if is_at(name, it)]
        if len(found) > 1:
            faults.append(f"{name} is of several functions: {found}")
    named = {it for name in names for it in known[name.partition("::")[0]] if is_at(name, it)}
    faults += [f"no name is of {it}" for locations in known.values() for it in locations - named]
    print(f"{log}: {len(names)} names, {len(named)} functions of sources")
    return faults


def check_logs(log: list[str] | None) -> None:
    """Each name of a log is of one function, and each function of the sources has one."""
    if not log:
        pytest.skip("no log is told")
    none_of(fault for each in log for fault in faults_in(each))
