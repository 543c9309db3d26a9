"""Tests `scripts/processor`, which prints what the proved programs are compiled for, over the flags of several machines.

The features of x86-64-v3 are those of the x86-64 psABI, under the names that Linux prints.
"""

from __future__ import annotations

import os
import subprocess
from pathlib import Path

import pytest

TOP = Path(__file__).resolve().parents[2]

# What x86-64-v3 needs beyond x86-64-v2, and the flags of a machine that has it: a Haswell.
NEEDED = ["avx", "avx2", "bmi1", "bmi2", "f16c", "fma", "abm", "movbe", "xsave"]
HASWELL = (
    "fpu sse2 ssse3 fma cx16 sse4_1 sse4_2 movbe popcnt aes xsave avx f16c rdrand lahf_lm abm fsgsbase bmi1 avx2 bmi2 erms xsaveopt"
)


def processor(room: Path, cpu: str = "") -> subprocess.CompletedProcess[str]:
    """Runs the script over the file `cpuinfo` of a folder, with a value of CONIKS_CPU."""
    script = room / "processor"
    script.write_text((TOP / "scripts/processor").read_text().replace("/proc/cpuinfo", str(room / "cpuinfo")))
    return subprocess.run(["sh", script], capture_output=True, text=True, env=os.environ | {"CONIKS_CPU": cpu})


def printed(room: Path, flags: str) -> str:
    """What the script prints on a machine of two processors with these flags."""
    one = f"processor\t: 0\nmodel name\t: avx2 by name\nflags\t\t: {flags}\nbugs\t\t: spectre_v1\n"
    (room / "cpuinfo").write_text(f"{one}\n{one}")
    ran = processor(room)
    assert (ran.returncode, ran.stderr) == (0, "")
    return ran.stdout


def test_newer(tmp_path: Path) -> None:
    assert printed(tmp_path, HASWELL) == "x86-64-v3\n"


@pytest.mark.parametrize("feature", NEEDED)
def test_older(tmp_path: Path, feature: str) -> None:
    """A machine that lacks one feature, also if it has others whose names contain its name."""
    lacking = " ".join(it for it in HASWELL.split() if it != feature)
    assert printed(tmp_path, f"{lacking} {feature}_more") == "x86-64-v2\n"
    assert printed(tmp_path, f"more{feature} {lacking}") == "x86-64-v2\n"
    assert printed(tmp_path, f"{lacking} {feature}") == "x86-64-v3\n"


def test_no_flags(tmp_path: Path) -> None:
    """Without the file, or without flags in it, the machine is taken for an older one."""
    ran = processor(tmp_path)
    assert (ran.returncode, ran.stdout, ran.stderr) == (0, "x86-64-v2\n", "")
    (tmp_path / "cpuinfo").write_text("processor\t: 0\n")
    assert processor(tmp_path).stdout == "x86-64-v2\n"


@pytest.mark.parametrize("cpu", ["x86-64-v2", "x86-64-v3"])
@pytest.mark.parametrize("flags", ["fpu sse2", HASWELL])
def test_requested(tmp_path: Path, flags: str, cpu: str) -> None:
    (tmp_path / "cpuinfo").write_text(f"flags\t\t: {flags}\n")
    ran = processor(tmp_path, cpu)
    assert (ran.returncode, ran.stdout, ran.stderr) == (0, f"{cpu}\n", "")


@pytest.mark.parametrize("cpu", ["x86-64", "x86-64-v4", "native", "v3", " ", "x86-64-v2 ", "*"])
def test_refused(tmp_path: Path, cpu: str) -> None:
    (tmp_path / "cpuinfo").write_text(f"flags\t\t: {HASWELL}\n")
    ran = processor(tmp_path, cpu)
    shown = f'processor: CONIKS_CPU is "{cpu}", expected x86-64-v2 or x86-64-v3\n'
    assert (ran.returncode, ran.stdout, ran.stderr) == (2, "", shown)
