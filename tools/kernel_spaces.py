"""Sets the networks of kernel_plan.py up in network namespaces, for kernel_test.py, and reads back what their boxes print.

All runs in a namespace of its own, of the network and of mounts, with a /run of its own: so nothing of the machine's network is seen or changed, and all is gone
with the last process, however it ends.
"""

import contextlib
import ctypes
import json
import os
import shutil
import subprocess
import sys
import time
from pathlib import Path
from typing import Dict, Iterator, List, Sequence

from kernel_plan import STRANGER, Abilities, Box, End, Plan

# The namespace of hosts, and of what lies behind interfaces that lead out.
OUTSIDE = "outside"
# What the process is told by that it is in namespaces of its own already.
_MARK = "SYMNET_KERNEL_TEST"
_NEW_NETWORK = 0x40000000
_NAMES = Path("/run/netns")
# How many seconds the kernel may take to notice that wires are up.
SETTLED = 20


class Failed(Exception):
    """A command that should work does not."""


def run(words: Sequence[str], text: str = "") -> str:
    """Runs a command, and returns what it writes."""
    ran = subprocess.run(words, input=text, capture_output=True, text=True, check=False)
    if ran.returncode:
        raise Failed(f"{' '.join(words)}: {ran.stderr.strip()[:500]}\n{text}")
    return ran.stdout


def does(words: Sequence[str], text: str = "") -> bool:
    """Whether a command is there and works."""
    return shutil.which(words[0]) is not None and subprocess.run(words, input=text, capture_output=True, text=True, check=False).returncode == 0


def why_not() -> str:
    """Why namespaces cannot be made here; empty where they can."""
    if not sys.platform.startswith("linux"):
        return "this is no Linux"
    missing = [it for it in ("ip", "unshare", "mount") if shutil.which(it) is None]
    if missing:
        return f"{' and '.join(missing)} is not installed"
    words = [*_apart(), "sh", "-c", "mount -t tmpfs none /run && ip netns add a && ip netns add b && ip -n a link add x type veth peer name y netns b"]
    return "" if does(words) else "network namespaces with veth interfaces cannot be made (they want root, or namespaces of users)"


def _apart() -> List[str]:
    return ["unshare", "--net", "--mount", *([] if os.geteuid() == 0 else ["--user", "--map-root-user"])]


def is_apart() -> bool:
    """Whether this process is in namespaces of its own already."""
    return os.environ.get(_MARK) == str(os.getpid())


def isolate(words: Sequence[str]) -> None:
    """Begins this script anew in namespaces of its own, where it is not in them yet."""
    if is_apart():
        run(["mount", "-t", "tmpfs", "none", "/run"])
        return
    os.environ[_MARK] = str(os.getpid())
    os.execvp("unshare", [*_apart(), sys.executable, *words])


@contextlib.contextmanager
def inside(name: str) -> Iterator[None]:
    """Sockets that are made in here, files of /proc/sys/net and commands are those of a namespace."""
    library = ctypes.CDLL(None, use_errno=True)
    with open("/proc/thread-self/ns/net", "rb") as here, open(_NAMES / name, "rb") as there:
        if library.setns(there.fileno(), _NEW_NETWORK):
            raise OSError(ctypes.get_errno(), f"setns {name}")
        try:
            yield
        finally:
            library.setns(here.fileno(), _NEW_NETWORK)


def abilities() -> Abilities:
    """What the tools and the kernel here can do, tried in a namespace."""
    run(["ip", "netns", "add", "trial"])
    rules = ("-p tcp -m multiport --ports 1,2", "-m ttl --ttl-eq 1", "-m iprange --src-range 10.0.0.1-10.0.0.2", "-p icmp -m icmp --icmp-type 8", "-j REJECT")
    lines = "".join(f"-A FORWARD {it}\n" for it in rules)
    table = "table inet t {\nchain c { type filter hook forward priority 0; policy drop;\ntcp dport vmap { 1-2 : drop }\nip daddr . tcp dport { 10.0.0.0/8 . 1-2 } reject\n}\n}\n"
    with inside("trial"):
        found = Abilities(
            does(["nft", "-f", "-"], table) and does(["nft", "-j", "list", "ruleset"]),
            does(["iptables-restore"], f"*filter\n{lines}COMMIT\n") and does(["iptables-save"]),
            does(["bridge", "-V"]) and does(["ip", "link", "add", "br0", "type", "bridge"]),
            does(["ip", "link", "add", "br1", "type", "bridge", "vlan_filtering", "1"]) and does(["ip", "link", "add", "link", "br1", "name", "br1.2", "type", "vlan", "id", "2"]))
    run(["ip", "netns", "del", "trial"])
    return found


# ---------------------------------------------------------------- a network


def _set(name: str, value: int) -> None:
    """Sets a value of the kernel, where it has it."""
    with contextlib.suppress(FileNotFoundError):
        Path("/proc/sys/net", name).write_text(str(value))


def _space(name: str, is_router: bool) -> None:
    """A namespace, with the settings that docs/import.md names."""
    run(["ip", "netns", "add", name])
    with inside(name):
        for of in ("all", "default"):
            _set(f"ipv6/conf/{of}/disable_ipv6", 1)
            _set(f"ipv4/conf/{of}/rp_filter", 0)
        _set("ipv4/ip_forward", int(is_router))
        _set("ipv4/icmp_echo_ignore_all", 1)
        _set("bridge/bridge-nf-call-iptables", 0)


def _outside(plan: Plan) -> Dict[End, str]:
    """Of each interface that has no box behind it the name of the other end."""
    found = {it.at: it.name for it in plan.hosts}
    return {**found, **{end: f"x{number}" for number, end in enumerate(plan.edges)}}


def ends_outside(plan: Plan) -> Dict[str, str]:
    """Of each interface outside what is there, in the words of the map of a job."""
    return {name: name if end in {it.at for it in plan.hosts} else ".".join(end) for end, name in _outside(plan).items()}


def _wires(plan: Plan) -> str:
    """The wires, as lines of `ip -batch`."""
    lines = []
    for one, other in plan.links:
        lines.append(f"link add name {one[1]} netns {one[0]} address {plan.interface(one).mac} type veth peer name {other[1]} netns {other[0]} address {plan.interface(other).mac}")
    macs = {it.name: it.mac for it in plan.hosts}
    for end, name in _outside(plan).items():
        lines.append(f"link add name {end[1]} netns {end[0]} address {plan.interface(end).mac} type veth peer name {name} netns {OUTSIDE} address {macs.get(name, STRANGER)}")
    return "\n".join(lines) + "\n"


def _box(box: Box) -> None:
    """Sets a box up, whose wires are there."""
    lines, bridge = ["link set lo up"], []
    for it in box.interfaces.values():
        if it.is_bridge:
            lines.append(f"link add {it.name} address {it.mac} type bridge stp_state 0 mcast_snooping 0 group_fwd_mask {it.forwarded}{' vlan_filtering 1 vlan_default_pvid 0' if box.has_vlans else ''}")
    for it in box.interfaces.values():
        if it.below:
            lines.append(f"link add link {it.below} name {it.name} type vlan id {it.vlan}")
        if it.bridge:
            lines.append(f"link set {it.name} master {it.bridge}")
            bridge.append(f"link set dev {it.name} learning off")
        bridge += [f"vlan add dev {it.name} vid {words}" for words in it.vlans]
        bridge += [f"fdb add {words.split()[0]} dev {it.name} master static {' '.join(words.split()[1:])}" for words in it.stations]
    for it in box.interfaces.values():
        lines += [f"addr add {one} dev {it.name}" for one in it.addresses]
        lines += [f"link set {it.name} up"] if it.is_up else []
    run(["ip", "-n", box.name, "-batch", "-"], "\n".join(lines) + "\n")
    run(["bridge", "-n", box.name, "-batch", "-"], "\n".join(bridge) + "\n") if bridge else None
    with inside(box.name):
        # a drawn route may be there already, or have no next router: what is there is read back
        subprocess.run(["ip", "-force", "-batch", "-"], input="".join(f"route add {it}\n" for it in box.routes), capture_output=True, text=True, check=False)
        run(["nft", "-f", "-"], box.nft) if box.nft else None
        run(["iptables-restore"], box.iptables) if box.iptables else None


def _is_settled(plan: Plan) -> bool:
    """Whether the kernel has noticed of each wire whether both of its ends are up, and bridges forward."""
    peers = {one: plan.interface(other).is_up for link in plan.links for one, other in (link, link[::-1])}
    peers.update({it.at: it.is_up for it in plan.hosts})
    for box in plan.boxes.values():
        states = {it["ifname"]: it.get("operstate") for it in json.loads(run(["ip", "-n", box.name, "-j", "link"]))}
        for it in box.interfaces.values():
            if it.has_wire and it.is_up and (states[it.name] == "UP") != peers.get((box.name, it.name), True):
                return False
        if any(it.is_bridge for it in box.interfaces.values()):
            if any(it["state"] != "forwarding" for it in json.loads(run(["bridge", "-n", box.name, "-j", "link"]))):
                return False
    return True


def _settle(plan: Plan) -> None:
    end = time.monotonic() + SETTLED
    while not _is_settled(plan):
        if time.monotonic() > end:
            raise Failed(f"after {SETTLED} seconds not all wires of seed {plan.seed} are up")
        time.sleep(0.05)


@contextlib.contextmanager
def network(plan: Plan) -> Iterator[None]:
    """The network of a plan, for as long as it is looked at."""
    try:
        _space(OUTSIDE, False)
        for box in plan.boxes.values():
            _space(box.name, box.is_router)
        run(["ip", "-batch", "-"], _wires(plan))
        down = {it.name for it in plan.hosts if not it.is_up}
        run(["ip", "-n", OUTSIDE, "-batch", "-"], "".join(f"link set {it} up\n" for it in _outside(plan).values() if it not in down))
        for box in plan.boxes.values():
            _box(box)
        _settle(plan)
        yield
    finally:
        for name in (OUTSIDE, *plan.boxes):
            does(["ip", "netns", "del", name])


def neighbors(plan: Plan, destinations: Sequence[str], has_frames: bool) -> None:
    """Tells each router the address of Ethernet behind each interface of each next router and of each destination: the right one where the import may know it, else that of
    the other end of the wire, which the job does not say, or of a stranger."""
    peers = {one: plan.interface(other).mac for link in plan.links for one, other in (link, link[::-1])}
    peers.update({it.at: it.mac for it in plan.hosts})
    stations = {str(ip): mac for ip, mac in plan.stations.items()}
    for box in plan.boxes.values():
        lines = []
        for it in box.interfaces.values() if box.is_router else ():
            gateways = box.gateways(it.name)
            near = gateways | {str(ip) for ip in plan.stations if any(ip in one.network for one in it.addresses)}
            for ip in sorted({*gateways, *destinations} - {str(one.ip) for one in it.addresses} if not it.bridge else ()):
                known = stations.get(ip) if ip in near else None
                mac = (known or STRANGER) if has_frames else peers.get((box.name, it.name), STRANGER)
                lines.append(f"neigh replace {ip} lladdr {mac} dev {it.name} nud permanent")
        with inside(box.name):
            subprocess.run(["ip", "-force", "-batch", "-"], input="\n".join(lines) + "\n", capture_output=True, text=True, check=False)


# ---------------------------------------------------------------- what its boxes print


def _prints(box: Box) -> Dict[str, List[str]]:
    """The files of a box, and the commands that print them."""
    found: Dict[str, List[str]] = {"ip-addr.json": ["ip", "-d", "-j", "addr"]}
    if box.is_router:
        found.update({"ip-route.json": ["ip", "-j", "route", "show", "table", "all"], "ip-rule.json": ["ip", "-j", "rule"]})
    if box.nft:
        found["nft.json"] = ["nft", "-j", "list", "ruleset"]
    if box.iptables:
        found["iptables-save.txt"] = ["iptables-save"]
    if any(it.is_bridge for it in box.interfaces.values()):
        found.update({"bridge-fdb.json": ["bridge", "-j", "fdb"], "bridge-link.json": ["bridge", "-j", "link"]})
        if box.has_vlans:
            found["bridge-vlan.json"] = ["bridge", "-j", "vlan"]
    return found


def write_outputs(plan: Plan, folder: Path) -> None:
    """Writes the folder that `symnet import` reads."""
    folder.mkdir(parents=True, exist_ok=True)
    (folder / "topology").write_text(plan.topology)
    for box in plan.boxes.values():
        (folder / box.name).mkdir(exist_ok=True)
        with inside(box.name):
            for name, words in _prints(box).items():
                (folder / box.name / name).write_text(run(words))
